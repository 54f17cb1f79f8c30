// Storing to row[i] faults: that axis has no row of time stamps, so the local row is null.
// The case holds the method stamp, compiled with -g:none: the fault at index 12 (lastore), the field ticks, no local
// records, so row goes by its slot, 5. Index and long value take three slots above the null.
class Stamps {
    long[][] ticks = new long[3][];

    void stamp(int axis, int i, long tick) {
        long[] row = ticks[axis];
        row[i] = tick;
    }
}
