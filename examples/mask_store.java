// Storing to usable[worst] faults: that axis has no mask, so the local usable is null.
// The case holds the method reject, compiled with -g:none: the fault at index 10 (bastore), the field masks, no local records, so
// usable goes by its slot, 3. The machine stores to boolean arrays and to byte arrays by bastore.
class Rejection {
    boolean[][] masks = new boolean[3][];

    void reject(int axis, int worst) {
        boolean[] usable = masks[axis];
        usable[worst] = false;
    }
}
