// Loading z[i + 1] faults: the parameter z is null.
// The case holds the method next, compiled with -g: the fault at index 4 (daload), no members, two local records. Document
// 01's walk does not model iadd and gives up at index 3 after three instructions, so z is not named; the full one names it.
class Neighbour {
    static double next(double[] z, int i) {
        return z[i + 1];
    }
}
