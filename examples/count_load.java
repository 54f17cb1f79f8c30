// Loading counts[3 * sample + axis] faults: the raw counts were never read in, so the parameter counts is null.
// The case holds the method field, compiled with -g: the fault at index 6 (baload), no members, four local records. Here the array
// is one of bytes. Document 01's walk gives up at imul, after three instructions; the full one names counts.
class RawCounts {
    static double field(byte[] counts, int sample, int axis, double step) {
        return counts[3 * sample + axis] * step;
    }
}
