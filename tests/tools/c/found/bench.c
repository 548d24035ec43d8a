/* A benchmark: the rate of computation, and the time of h-relations. */
#include <bsp.h>
#include <stdio.h>
#include <stdlib.h>

#define NITERS 10
#define MAXN 64
#define MAXH 16

void main(int argc, char **argv)
{
    double x[MAXN], y[MAXN], time0, time1, mintime = 1e30, src[MAXH], *dest;
    int i, iter, h, p, s;
    bsp_begin(bsp_nprocs());
    p = bsp_nprocs();
    s = bsp_pid();
    dest = malloc(MAXH * sizeof(double));
    bsp_push_reg(dest, MAXH * sizeof(double));
    bsp_sync();
    for (i = 0; i < MAXN; i++)
        x[i] = y[i] = i;
    for (iter = 0; iter < NITERS; iter++) {
        time0 = bsp_time();
        for (i = 0; i < MAXN; i++)
            y[i] += 1.0000001 * x[i];
        time1 = bsp_time();
        if (time1 - time0 < mintime)
            mintime = time1 - time0;
    }
    for (h = 1; h <= MAXH; h++) {
        for (i = 0; i < h; i++) {
            src[i] = s + i;
            bsp_put((s + 1) % p, &src[i], dest, i * sizeof(double), sizeof(double));
        }
        bsp_sync();
    }
    if (s == 0) {
        if (mintime > 0.0)
            printf("r= %.3lf Mflop/s\n", 2 * MAXN / mintime / 1e6);
        else
            printf("minimum time is 0, clock is too coarse\n");
        printf("last received: %g\n", dest[MAXH - 1] - (s + p - 1) % p);
    }
    bsp_pop_reg(dest);
    bsp_end();
}
