// Entering the synchronized block faults: the parameter gate is null.
// The case holds the method add, compiled with -g: the fault at index 3 (monitorenter), the field rows, two local
// records. javac copies gate to a local of its own on the way (dup, astore_2); what stays on the stack is still that
// load.
class Recorder {
    int rows;

    void add(Object gate) {
        synchronized (gate) {
            rows = rows + 1;
        }
    }
}
