// Reading .length faults: the array that was chosen, flat or tilted, is null.
// The case holds the method count, compiled with -g: the fault at index 9 (arraylength), no members, three local
// records. Two paths meet at the fault, so either local may be meant and none is named.
class Chosen {
    static int count(boolean level, double[] flat, double[] tilted) {
        return (level ? flat : tilted).length;
    }
}
