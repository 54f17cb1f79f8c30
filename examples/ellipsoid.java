// Loading axes[0] faults: the lengths of the axes were never estimated, so the parameter axes is null.
// The case holds the method normal, compiled with -g: the fault at index 29 (daload), no members, seven local records. The block
// starts behind the loop's test, at index 17. Document 01's walk gives up at dsub, after eight instructions; the full one walks
// all eleven and names axes.
class EllipsoidFit {
    static double[][] normal(double[][] points, double[] centre, double[] axes) {
        double[][] sum = new double[3][3];
        for (int i = 0; i < points.length; i++) {
            double x = (points[i][0] - centre[0]) / axes[0];
            double y = (points[i][1] - centre[1]) / axes[1];
            sum[0][0] += x * x;
            sum[0][1] += x * y;
            sum[1][1] += y * y;
        }
        return sum;
    }
}
