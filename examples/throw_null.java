// The statement throw failure faults: the parameter failure is null.
// The case holds the method check, compiled with -g: the fault at index 7 (athrow), no members, two local records.
// The comparison before it is not modelled, but the branch ends its block, and the walk starts behind it.
class Residuals {
    static void check(double residual, RuntimeException failure) {
        if (residual > 1.0) {
            throw failure;
        }
    }
}
