/* Monte Carlo with the generators of stdlib.h that Unix has, and with one of the program's own. */
#define _XOPEN_SOURCE 600
#include <bsp.h>
#include <math.h>
#include <stdint.h>
#include <stdio.h>
#include <stdlib.h>

static uint64_t state;
static inline uint64_t rotl(uint64_t x, int k) { return x << k | x >> (64 - k); }
static double xorshift(void)
{
    state ^= state << 13;
    state ^= state >> 7;
    state ^= state << 17;
    return (double)(rotl(state, 11) >> 11) * (1.0 / 9007199254740992.0);
}

static double darts(double (*next)(void), int n)
{
    int hits = 0;
    for (int i = 0; i < n; i++) {
        double x = next(), y = next();
        if (hypot(x, y) <= 1.0)
            hits++;
    }
    return 4.0 * hits / n;
}

int main(void)
{
    bsp_begin(bsp_nprocs());
    int p = bsp_nprocs(), s = bsp_pid();
    double *pis = malloc(2 * p * sizeof(double)), mine[2], sum = 0, square = 0;
    bsp_push_reg(pis, 2 * p * sizeof(double));
    bsp_sync();
    srand48(1234567L + s);
    mine[0] = darts(drand48, 4000);
    state = 88172645463325252ULL * (s + 1);
    mine[1] = darts(xorshift, 4000);
    unsigned short seed[3] = {1, 2, (unsigned short)s};
    long first = nrand48(seed), second = mrand48();
    printf("%d: %.4f %.4f, nrand48 %ld, mrand48 %ld, erand48 %.6f\n", s, mine[0], mine[1], first, second, erand48(seed));
    bsp_put(0, mine, pis, s * sizeof mine, sizeof mine);
    bsp_sync();
    if (s == 0) {
        for (int i = 0; i < 2 * p; i++)
            sum += pis[i], square += pis[i] * pis[i];
        double mean = sum / (2 * p), sigma = sqrt(square / (2 * p) - mean * mean);
        printf("pi = %.5f +- %.5f, in error by %.1e\n", mean, sigma, fabs(mean - M_PI));
    }
    free(pis);
    bsp_end();
    return 0;
}
