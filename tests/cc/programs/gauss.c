#include <math.h>
#include <stdio.h>
#include <stdlib.h>
#include <string.h>

typedef double (*function)(double);
typedef struct {
    size_t rows, cols;
    double *data;
} matrix;

static matrix matrix_new(size_t rows, size_t cols) {
    matrix m = {rows, cols, calloc(rows * cols, sizeof(double))};
    if (!m.data) abort();
    return m;
}
#define AT(m, r, c) ((m).data[(r) * (m).cols + (c)])

static int solve(matrix *a, double *x) {
    size_t n = a->rows;
    for (size_t k = 0; k < n; k++) {
        size_t best = k;
        for (size_t r = k + 1; r < n; r++)
            if (fabs(AT(*a, r, k)) > fabs(AT(*a, best, k))) best = r;
        if (fabs(AT(*a, best, k)) < 1e-12) return -1;
        for (size_t c = 0; c <= n; c++) {
            double t = AT(*a, k, c);
            AT(*a, k, c) = AT(*a, best, c);
            AT(*a, best, c) = t;
        }
        for (size_t r = k + 1; r < n; r++) {
            double f = AT(*a, r, k) / AT(*a, k, k);
            for (size_t c = k; c <= n; c++) AT(*a, r, c) -= f * AT(*a, k, c);
        }
    }
    for (size_t i = n; i-- > 0;) {
        double s = AT(*a, i, n);
        for (size_t c = i + 1; c < n; c++) s -= AT(*a, i, c) * x[c];
        x[i] = s / AT(*a, i, i);
    }
    return 0;
}

static double cubic(double x) { return x * x * x - 2 * x - 5; }
static double parabola(double x) { return x * x - 2; }
static double wave(double x) { return x - x * x * x / 6 + x * x * x * x * x / 120 - 0.5; }

static double bisect(function f, double lo, double hi, int *steps) {
    for (*steps = 0; hi - lo > 1e-12 && *steps < 200; ++*steps) {
        double mid = (lo + hi) / 2;
        if ((f(lo) < 0) == (f(mid) < 0))
            lo = mid;
        else
            hi = mid;
    }
    return (lo + hi) / 2;
}

static double simpson(function f, double a, double b, int n) {
    double h = (b - a) / n, s = f(a) + f(b);
    for (int i = 1; i < n; i++) s += f(a + i * h) * (i % 2 ? 4 : 2);
    return s * h / 3;
}

int main(void) {
    unsigned n;
    while (scanf("%u", &n) == 1 && n > 0 && n <= 8) {
        matrix a = matrix_new(n, n + 1);
        double x[8] = {0};
        for (size_t r = 0; r < n; r++)
            for (size_t c = 0; c <= n; c++)
                if (scanf("%lf", &AT(a, r, c)) != 1) return puts("bad input"), 2;
        if (solve(&a, x))
            puts("singular");
        else
            for (size_t i = 0; i < n; i++) printf("x%zu = %.9f%c", i, x[i], i + 1 < n ? ' ' : '\n');
        free(a.data);
    }
    static const struct {
        const char *name;
        function f;
        double lo, hi;
    } cases[] = {{"cubic", cubic, 2, 3}, {"parabola", parabola, 0, 2}, {"wave", wave, 0, 1}};
    for (size_t i = 0; i < sizeof cases / sizeof cases[0]; i++) {
        int steps;
        double root = bisect(cases[i].f, cases[i].lo, cases[i].hi, &steps);
        printf("%-10s root %.12f in %d steps, f = %+.3e, integral %.10f, sqrt %.6f\n", cases[i].name, root, steps,
               cases[i].f(root), simpson(cases[i].f, 0, 1, 20), sqrt(root));
    }
    float f = 0.1f;
    float sum = 0;
    for (int i = 0; i < 10; i++) sum += f;
    printf("%.9f %d %g\n", sum, sum == 1.0f, floor(-2.5) + ceil(2.1) + fmod(7.5, 2));
    return EXIT_SUCCESS;
}
