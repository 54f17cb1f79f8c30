// Loading weights[i] faults: the samples came without weights, so the parameter weights is null.
// The case holds the method add, compiled with -g: the fault at index 39 (daload), the fields rows and sum, six local records. The
// block starts behind the loop's test, at index 10. Document 01's walk gives up at dsub, after six instructions; the full one walks
// on through the stores to residual and rows, and names weights.
class ResidualSum {
    int rows;
    double sum;

    void add(double[] model, double[] data, double[] weights) {
        for (int i = 0; i < data.length; i++) {
            double residual = model[i] - data[i];
            rows++;
            sum += weights[i] * residual * residual;
        }
    }
}
