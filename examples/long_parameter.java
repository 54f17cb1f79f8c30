// Loading z[0] faults: the parameter z is null.
// The case holds the static method first, compiled with -g:none: the fault at index 2 (daload), no members, no local
// records. The long tick takes slots 0 and 1, so slot 2 is the second parameter.
class First {
    static double first(long tick, double[] z) {
        return z[0];
    }
}
