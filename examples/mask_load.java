// Loading usable[i] faults: the flight came without a mask of usable samples, so the parameter usable is null.
// The case holds the method mean, compiled with -g: the fault at index 18 (baload), no members, five local records. The machine
// loads from boolean arrays and from byte arrays by baload, and the code does not tell which it was: wording 2 says byte/boolean,
// wording 1 says byte, and there is no byte array here.
class SampleMask {
    static double mean(double[] z, boolean[] usable) {
        double sum = 0;
        int used = 0;
        for (int i = 0; i < z.length; i++) {
            if (usable[i]) {
                sum += z[i];
                used++;
            }
        }
        return sum / used;
    }
}
