/* A fast Fourier transform: exchanges with partners while the halves are on two processes, and then none. */
#include <bsp.h>
#include <math.h>
#include <stdio.h>
#include <stdlib.h>

#define N 32

typedef struct {
    double re, im;
} complex_t;

static complex_t x[N], other[N], whole[N];

static void butterfly(int low, complex_t a, complex_t b, int k, int half, complex_t *to)
{
    double angle = -M_PI * k / half, re = a.re - b.re, im = a.im - b.im;
    if (low) {
        to->re = a.re + b.re;
        to->im = a.im + b.im;
    } else {
        to->re = re * cos(angle) - im * sin(angle);
        to->im = re * sin(angle) + im * cos(angle);
    }
}

int main(int argc, char **argv)
{
    bsp_begin(bsp_nprocs());
    int p = bsp_nprocs(), s = bsp_pid(), n = N / p, half, i;
    for (i = 0; i < n; i++)
        x[i].re = (s * n + i) % 4 == 0 ? 1 : 0;
    bsp_push_reg(other, sizeof other);
    bsp_push_reg(whole, sizeof whole);
    bsp_sync();
    for (half = N / 2; half >= 1; half /= 2) {
        if (half >= n) {
            int low = (s * n & half) == 0, partner = s ^ (half / n);
            bsp_put(partner, x, other, 0, n * sizeof(complex_t));
            bsp_sync();
            for (i = 0; i < n; i++)
                butterfly(low, low ? x[i] : other[i], low ? other[i] : x[i], (s * n + i) % half, half, &x[i]);
        } else
            for (i = 0; i < n; i++)
                if ((i & half) == 0) {
                    complex_t a = x[i], b = x[i + half];
                    butterfly(1, a, b, i % half, half, &x[i]);
                    butterfly(0, a, b, i % half, half, &x[i + half]);
                }
    }
    /* The result stands in the order of reversed bits. */
    for (i = 0; i < n; i++) {
        int at = 0, from = s * n + i;
        for (int bit = 1; bit < N; bit *= 2)
            at = 2 * at + ((from & bit) != 0);
        bsp_put(0, &x[i], whole, at * sizeof(complex_t), sizeof(complex_t));
    }
    bsp_sync();
    if (s == 0)
        for (i = 0; i < N; i += 4)
            printf("%2d: %.3f %.3f\n", i, whole[i].re, fabs(whole[i].im));
    bsp_end();
    return 0;
}
