// Loading y[0] faults, but the case is broken: it lost its last byte on the way.
// The case holds the static method first, compiled with -g: the fault at index 2 (daload), no members, and two local
// records. The name of the second, y, is missing; its length number at offset 31 is the first wrong item.
class Upload {
    static double first(double[] x, double[] y) {
        return y[0];
    }
}
