// Storing to counts[i] faults: there is no place for the raw counts, so the parameter counts is null.
// The case holds the method quantise, compiled with -g: the fault at index 21 (bastore), no members, four local records. Here the
// array is one of bytes. The block starts behind the loop's test, at index 10. Document 01's walk gives up at ddiv, after six
// instructions; the full one walks all nine and names counts.
class Quantised {
    static void quantise(double[] field, double step, byte[] counts) {
        for (int i = 0; i < field.length; i++) {
            counts[i] = (byte) (field[i] / step);
        }
    }
}
