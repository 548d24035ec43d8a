/* A Fourier transform of complex numbers of C, each rank some of the results. */
#include <bsp.h>
#include <complex.h>
#include <math.h>
#include <stdio.h>

#define N 16

int main(void)
{
    double complex x[N], y;
    int j, k;
    bsp_begin(bsp_nprocs());
    for (j = 0; j < N; j++)
        x[j] = cos(2 * 3.14159265358979323846 * 3 * j / N) + 0.5 * I * (j % 2);
    for (k = bsp_pid(); k < N; k += bsp_nprocs()) {
        y = 0;
        for (j = 0; j < N; j++)
            y += x[j] * cexp(-2 * 3.14159265358979323846 * I * j * k / N);
        printf("%2d: %6.3f %6.3f\n", k, fabs(creal(y)) < 1e-9 ? 0 : creal(y), fabs(cimag(y)) < 1e-9 ? 0 : cimag(y));
    }
    bsp_end();
    return 0;
}
