// Reading samples.length faults: the parameter samples is null.
// The case holds the method enough, compiled with -g:none: the fault at index 1 (arraylength), the field needed, no
// local records. The method is not static, so slot 0 is this and the first parameter has slot 1.
class Coverage {
    int needed = 400;

    boolean enough(double[] samples) {
        return samples.length >= needed;
    }
}
