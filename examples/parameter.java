// The statement s.length() faults: the parameter s is null.
// The case is the one that document 01 spells out, 65 bytes, laid out by hand: the static method m, its six bytes of
// code, the fault at index 1 (invokevirtual), String.length() as member 1 (javac gives it another pool index), no
// local records.
class Figure {
    static void m(String s) {
        s.length();
    }
}
