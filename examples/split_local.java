// Loading from order faults: order was null when it was loaded, before next was assigned to it.
// The case holds the method follow, compiled with -g: the fault at index 6 (the second iaload), no members, four
// local records. javac's record of slot 0 was split by hand, as an optimiser of class files might leave it: order
// from index 0 to 3, next from index 4 on. The null was loaded at index 0, so its name is order, though at the fault
// slot 0 is next.
class Order {
    static int follow(int[] order, int[] next, int i) {
        return order[(order = next)[i]];
    }
}
