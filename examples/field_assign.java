// Assigning fit.radius faults: there is no best fit yet, so the local fit is null.
// The case holds the method keep, compiled with -g: the fault at index 7 (putfield), the fields best and radius, and
// three local records. The value is a double, so the null lies two slots below the top of the stack.
class Fitting {
    static class Fit {
        double radius;
    }

    Fit best;

    void keep(double radius) {
        Fit fit = best;
        fit.radius = radius;
    }
}
