// Reading axis.offset faults: nothing was fitted for that axis, so the local axis is null.
// The case holds the method correct, compiled with -g: the fault at index 11 (getfield), the fields fitted and
// offset, and four local records; the last gives slot 4 the name axis from index 8 on.
class Corrections {
    static class Axis {
        double offset;
        double scale;
    }

    Axis[] fitted = new Axis[3];

    double correct(double raw, int number) {
        Axis axis = fitted[number];
        return raw - axis.offset;
    }
}
