/* Heat in a rod, with a cell of each neighbour. */
#include <bsp.h>
#include <stdio.h>

#define CELLS 6
#define STEPS 40

int main(void)
{
    double u[CELLS + 2], v[CELLS + 2];
    int i, t, p, s;
    bsp_begin(bsp_nprocs());
    p = bsp_nprocs();
    s = bsp_pid();
    for (i = 0; i < CELLS + 2; i++)
        u[i] = 0;
    if (s == 0)
        u[0] = 100;
    bsp_push_reg(u, sizeof u);
    bsp_sync();
    for (t = 0; t < STEPS; t++) {
        if (s > 0)
            bsp_put(s - 1, &u[1], u, (CELLS + 1) * sizeof(double), sizeof(double));
        if (s < p - 1)
            bsp_put(s + 1, &u[CELLS], u, 0, sizeof(double));
        bsp_sync();
        for (i = 1; i <= CELLS; i++)
            v[i] = u[i] + 0.25 * (u[i - 1] - 2 * u[i] + u[i + 1]);
        for (i = 1; i <= CELLS; i++)
            u[i] = v[i];
    }
    for (i = 1; i <= CELLS; i++)
        printf("%8.4f%s", u[i], i < CELLS ? "" : "\n");
    bsp_end();
    return 0;
}
