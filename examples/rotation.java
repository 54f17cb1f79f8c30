// Storing to turned[0] faults: there is no place for the turned point, so the parameter turned is null.
// The case holds the method turn, compiled with -g: the fault at index 38 (dastore), the methods cos and sin, six local records.
// Document 01's walk gives up at f2d, after one instruction; the full one walks through the angle, the calls and the products, and
// names turned, three slots below the top of the stack.
class Rotation {
    static void turn(double[] point, float degrees, double[] turned) {
        double angle = degrees * Math.PI / 180;
        double cos = Math.cos(angle);
        double sin = Math.sin(angle);
        turned[0] = point[0] * cos - point[1] * sin;
        turned[1] = point[0] * sin + point[1] * cos;
    }
}
