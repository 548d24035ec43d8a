/* Conjugate gradients for the matrix of second differences, one block of the vectors on each rank. */
#include <bsp.h>
#include <math.h>
#include <stdio.h>
#include <string.h>

enum { N = 32 };
typedef struct { double *v; int n; } vec;

static double all[64];

static double dot(vec a, vec b)
{
    double sum = 0.0;
    int i, p = bsp_nprocs(), s = bsp_pid();
    for (i = 0; i < a.n; ++i)
        sum += a.v[i] * b.v[i];
    for (i = 0; i < p; ++i)
        bsp_put(i, &sum, all, s * (int)sizeof sum, (int)sizeof sum);
    bsp_sync();
    for (sum = 0.0, i = 0; i < p; ++i)
        sum += all[i];
    return sum;
}

int main(void)
{
    bsp_begin(bsp_nprocs());
    const int p = bsp_nprocs(), s = bsp_pid(), n = N / p;
    double x[N] = {0}, r[N], q[N + 2] = {0}, aq[N], rho, old = 0;
    vec R = {r, n}, AQ = {aq, n}, Q = {q + 1, n};
    int k = 0;

    bsp_push_reg(all, sizeof all);
    bsp_push_reg(q, sizeof q);
    bsp_sync();
    for (int i = 0; i < n; ++i)
        r[i] = 1.0;
    for (rho = dot(R, R); sqrt(rho) > 1e-9 && k < 100; ++k) {
        const double beta = k ? rho / old : 0.0;
        for (int i = 1; i <= n; ++i)
            q[i] = r[i - 1] + beta * q[i];
        if (s > 0)
            bsp_put(s - 1, &q[1], q, (n + 1) * (int)sizeof *q, sizeof *q);
        if (s < p - 1)
            bsp_put(s + 1, &q[n], q, 0, sizeof *q);
        bsp_sync();
        for (int i = 1; i <= n; ++i)
            aq[i - 1] = 2 * q[i] - q[i - 1] - q[i + 1];
        const double alpha = rho / dot(Q, AQ);
        for (int i = 0; i < n; ++i) {
            x[i] += alpha * q[i + 1];
            r[i] -= alpha * aq[i];
        }
        old = rho;
        rho = dot(R, R);
    }
    printf("rank %d, %d steps: %.3f to %.3f\n", s, k, x[0], x[n - 1]);
    bsp_end();
    return 0;
}
