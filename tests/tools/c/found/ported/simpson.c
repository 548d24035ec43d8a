/* Integrates functions that are chosen by prompts, single and double precision, until 0 is chosen. */
#include <bsp.h>
#include <math.h>
#include <stdio.h>
#include <stdlib.h>
typedef double (*function)(double);
static double square(double x) { return x * x; }
static double bell(double x) { return exp(-x * x); }
static function functions[] = {NULL, square, sin, bell, sqrt, cosh};
static const char *names[] = {"", "x^2", "sin", "exp(-x^2)", "sqrt", "cosh"};
struct job { int which, n; float a, b; };
int main(void)
{
    struct job job = {0};
    double terms[64];
    bsp_begin(bsp_nprocs());
    bsp_push_reg(&job, sizeof job);
    bsp_push_reg(terms, sizeof terms);
    bsp_sync();
    for (;;) {
        int i, p = bsp_nprocs(), s = bsp_pid();
        if (s == 0) {
            printf("Function (1 %s, 2 %s, 3 %s, 4 %s, 5 %s, 0 ends), from, to, panels: ", names[1], names[2], names[3], names[4], names[5]);
            fflush(stdout);
            if (scanf("%d", &job.which) != 1 || job.which < 1 || job.which > 5 || scanf("%f%f%d", &job.a, &job.b, &job.n) != 3)
                job.which = 0;
            for (i = 1; i < p; i++) bsp_put(i, &job, &job, 0, sizeof job);
        }
        bsp_sync();
        if (job.which == 0) break;
        double h = ((double)job.b - job.a) / job.n;
        for (i = s; i < job.n && i < 64; i += p) {
            function f = functions[job.which];
            double x = job.a + i * h, t = h / 6 * (f(x) + 4 * f(x + h / 2) + f(x + h));
            bsp_put(0, &t, terms, i * sizeof t, sizeof t);
        }
        bsp_sync();
        if (s == 0) {
            double sum = 0;
            for (i = 0; i < job.n; i++) sum += terms[i];
            printf("\n%s from %g to %g: %.8f, as a float %.5f\n", names[job.which], job.a, job.b, sum, (double)(float)sum);
        }
    }
    if (bsp_pid() == 0) puts("\nBye.");
    bsp_end();
    return 0;
}
