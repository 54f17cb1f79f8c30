// Loading z[i] faults: the z axis was never filled, so the parameter z is null.
// The case holds the method mean, compiled with -g: the fault at index 9 (daload), no members, four local records.
// The branch at the end of the loop, behind the fault, starts the block at index 5: three instructions are walked,
// not seven.
class Mean {
    static double mean(double[] z, int count) {
        double sum = 0;
        int i = 0;
        do {
            sum += z[i];
            i++;
        } while (i < count);
        return sum / count;
    }
}
