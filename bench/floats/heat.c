/* The heat equation on a rod of N cells with ends of 0, in blocks, STEPS steps. Before each step a rank puts its first and last cell to the
   ranks beside it. */
#include <bsp.h>

#include "result.h"

#ifndef N
#define N 4096
#endif
#define STEPS 100

/* Cells 1 to count are this rank's; 0 and count + 1 belong to its neighbours, or are an end of the rod. Rank 0 gets all cells. */
static double cells[N + 2], next[N + 2], whole[N];

int main(void)
{
    bsp_begin(bsp_nprocs());
    int p = bsp_nprocs(), s = bsp_pid(), first = N * s / p, count = N * (s + 1) / p - first;
    for (int i = 1; i <= count; i++)
        cells[i] = some_number(first + i - 1);
    bsp_push_reg(cells, sizeof cells);
    bsp_push_reg(whole, sizeof whole);
    bsp_sync();

    for (int step = 0; step < STEPS; step++) {
        int count_before = first - N * (s - 1) / p;
        if (s > 0)
            bsp_put(s - 1, &cells[1], cells, (count_before + 1) * (int)sizeof(double), sizeof(double));
        if (s < p - 1)
            bsp_put(s + 1, &cells[count], cells, 0, sizeof(double));
        bsp_sync();
        for (int i = 1; i <= count; i++)
            next[i] = cells[i] + 0.4 * (cells[i - 1] - 2 * cells[i] + cells[i + 1]);
        for (int i = 1; i <= count; i++)
            cells[i] = next[i];
    }
    bsp_put(0, &cells[1], whole, first * (int)sizeof(double), count * (int)sizeof(double));
    bsp_sync();

    if (s == 0)
        print_result("cell in the middle", whole[N / 2], whole, sizeof whole);
    bsp_end();
    return 0;
}
