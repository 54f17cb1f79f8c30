// Reading .length faults: the array that was chosen, flat or tilted, is null. It is branch_join's method, but the upload was damaged.
// The case holds the method count, compiled with -g: the fault at index 9 (arraylength), no members, three local records. The goto
// behind the load of flat, at index 5, was overwritten by three bytes ff, so nothing tells that two paths meet at the fault. ff is
// no opcode: nothing is named out of such a code.
class Damaged {
    static int count(boolean level, double[] flat, double[] tilted) {
        return (level ? flat : tilted).length;
    }
}
