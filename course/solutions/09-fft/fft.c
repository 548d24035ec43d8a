/* Sheet 9, solved: a Fourier transform of N complex numbers with one exchange. */
#include <bsp.h>
#include <math.h>
#include <stdio.h>

#ifndef N
#define N 64
#endif
#ifndef SEED
#define SEED 1
#endif
#define PI 3.14159265358979323846

/* Rank s has the numbers s, s + p, s + 2 p, .. p and N/p are powers of two, and p times p divides N. */
struct complex {
    double re, im;
};
static struct complex own[N], came[N];

static struct complex times(struct complex a, struct complex b)
{
    return (struct complex){a.re * b.re - a.im * b.im, a.re * b.im + a.im * b.re};
}

/* The power of the root of unity: exp(-2 pi i power / n). */
static struct complex root(int power, int n)
{
    return (struct complex){cos(2 * PI * power / n), -sin(2 * PI * power / n)};
}

/* The transform of n numbers that lie step apart from from on, into to. */
static void transform(const struct complex *from, int step, struct complex *to, int n)
{
    if (n == 1) {
        to[0] = from[0];
        return;
    }
    transform(from, 2 * step, to, n / 2);
    transform(from + step, 2 * step, to + n / 2, n / 2);
    for (int k = 0; k < n / 2; k++) {
        struct complex even = to[k], odd = times(root(k, n), to[k + n / 2]);
        to[k] = (struct complex){even.re + odd.re, even.im + odd.im};
        to[k + n / 2] = (struct complex){even.re - odd.re, even.im - odd.im};
    }
}

/* y has the transform of this rank's m = N/p numbers. Number k of it is multiplied by root(s k, N); then numbers t m/p to (t + 1) m/p go to
   rank t, where those of rank s come to came from s m/p on. One superstep; came is registered. */
static void twiddle_and_exchange(int p, int s, struct complex *y)
{
    int m = N / p, size = m / p;

    for (int k = 0; k < m; k++)
        y[k] = times(y[k], root(s * k, N));
    for (int t = 0; t < p; t++)
        bsp_put(t, y + t * size, came, s * size * (int)sizeof *y, size * (int)sizeof *y);
    bsp_sync();
}

int main(void)
{
    int p, s, m, size;
    static struct complex y[N], z[N];

    bsp_begin(bsp_nprocs());
    p = bsp_nprocs();
    s = bsp_pid();
    m = N / p;
    size = m / p;
    for (int j = 0; j < m; j++) {
        int i = s + j * p;
        own[j] = (struct complex){(i * 5 + SEED) % 11 - 5, i % 3 - 1};
    }
    bsp_push_reg(came, sizeof came);
    bsp_sync();

    transform(own, 1, y, m);
    twiddle_and_exchange(p, s, y);

    /* Number k + i of each rank's part belongs together: it is transformed over the ranks. */
    for (int i = 0; i < size; i++) {
        transform(came + i, size, z, p);
        for (int k = 0; k < p; k++)
            printf("X[%d] = %.6f %.6f\n", s * size + i + k * m, z[k].re + 0.0, z[k].im + 0.0);
    }
    bsp_end();
    return 0;
}
