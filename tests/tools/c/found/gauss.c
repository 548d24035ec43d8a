/* Gaussian elimination with rows in cyclic distribution and the broadcast of level 1. */
#include <bsp.h>
#include <bsp_level1.h>
#include <math.h>
#include <stdio.h>

#define N 10

int main(int argc, char **argv)
{
    double a[N][N + 1], pivot[N + 1], x[N];
    bsp_begin(bsp_nprocs());
    int p = bsp_nprocs(), s = bsp_pid(), i, j, k;
    for (i = s; i < N; i += p) {
        a[i][N] = 0;
        for (j = 0; j < N; j++) {
            a[i][j] = i == j ? N : 1.0 / (i + j + 1);
            a[i][N] += a[i][j] * (j + 1);
        }
    }
    for (k = 0; k < N; k++) {
        bsp_bcast(k % p, a[k], pivot, sizeof pivot);
        for (i = s; i < N; i += p)
            if (i > k) {
                double factor = a[i][k] / pivot[k];
                for (j = k; j <= N; j++)
                    a[i][j] -= factor * pivot[j];
            }
    }
    for (k = N - 1; k >= 0; k--) {
        if (k % p == s) {
            x[k] = a[k][N];
            for (j = k + 1; j < N; j++)
                x[k] -= a[k][j] * x[j];
            x[k] /= a[k][k];
        }
        bsp_bcast(k % p, &x[k], &x[k], sizeof(double));
    }
    if (s == 0)
        for (i = 0; i < N; i++)
            printf("x[%d] = %.6f\n", i, x[i]);
    bsp_end();
    return 0;
}
