// Nothing is dereferenced: the solver throws an exception that it made itself.
// The case holds the method require, compiled with -g: the index is 10 (invokespecial), where the exception's
// constructor is called, with that constructor as the one member and one local record. There is no message to give.
class Required {
    static void require(double[] z) {
        if (z == null) {
            throw new NullPointerException("z was never filled");
        }
    }
}
