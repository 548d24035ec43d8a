/* Heat on a ring of cells, with a halo that is put to the neighbours. P is a constant. */
#include <bsp.h>
#include <stdio.h>
#include <string.h>
#include <time.h>

#define P 16
#define CELLS 64
#define STEPS 12

static double u[CELLS + 2], v[CELLS + 2], whole[CELLS];

int main(int argc, char **argv)
{
    clock_t start = clock();
    bsp_begin(P);
    int p = bsp_nprocs(), s = bsp_pid(), n = CELLS / p;
    for (int i = 1; i <= n; i++)
        u[i] = s * n + i == 1 ? 4096.0 : 0.0;
    bsp_push_reg(u, sizeof u);
    bsp_push_reg(whole, sizeof whole);
    bsp_sync();
    for (int step = 0; step < STEPS; step++) {
        bsp_put((s + p - 1) % p, &u[1], u, (n + 1) * sizeof(double), sizeof(double));
        bsp_put((s + 1) % p, &u[n], u, 0, sizeof(double));
        bsp_sync();
        for (int i = 1; i <= n; i++)
            v[i] = (u[i - 1] + 2 * u[i] + u[i + 1]) / 4;
        memcpy(u + 1, v + 1, n * sizeof(double));
    }
    bsp_put(0, u + 1, whole, s * n * sizeof(double), n * sizeof(double));
    bsp_sync();
    if (s == 0) {
        double sum = 0;
        for (int i = 0; i < CELLS; i++)
            sum += whole[i];
        printf("total %.3f, first cells %.3f %.3f %.3f\n", sum, whole[0], whole[1], whole[2]);
        printf("it took %.1f s\n", (double)(clock() - start) / CLOCKS_PER_SEC);
    }
    bsp_end();
    return 0;
}
