// The call solver.step(point, turn, "z") faults: the parameter solver is null.
// The case holds the method refine, compiled with -g: the fault at index 5 (invokeinterface), the method step, four
// local records. The three arguments take three slots above the null.
package survey;

interface Solver {
    double step(double[] point, int turn, String axis);
}

class Ellipsoid {
    double refine(Solver solver, double[] point, int turn) {
        return solver.step(point, turn, "z");
    }
}
