/* Jacobi steps: a rod of N cells between a hot end and a cold one, in blocks. In each step a cell takes the mean of its neighbours;
   so before it every rank puts its first and last cell to the ranks beside it, into cells which stand for theirs. */
#include <bsp.h>
#include <stdio.h>

#define N 24
#define STEPS 20
#define HOT 100.0
#define COLD 0.0

/* Cells 1 to count are this rank's; 0 and count + 1 belong to its neighbours, or are an end of the rod. */
static double cells[N + 2], next[N + 2];

int main(void)
{
    int p, s, first, count;

    bsp_begin(bsp_nprocs());
    p = bsp_nprocs();
    s = bsp_pid();
    if (p > N)
        bsp_abort("%d cells are too few for %d ranks\n", N, p);
    first = N * s / p;
    count = N * (s + 1) / p - first;
    for (int i = 0; i < count + 2; i++)
        cells[i] = COLD;
    if (s == 0)
        cells[0] = HOT;
    bsp_push_reg(cells, sizeof cells);
    bsp_sync();

    for (int step = 0; step < STEPS; step++) {
        int count_before = first - N * (s - 1) / p;
        if (s > 0)
            bsp_put(s - 1, &cells[1], cells, (count_before + 1) * (int)sizeof(double), sizeof(double));
        if (s < p - 1)
            bsp_put(s + 1, &cells[count], cells, 0, sizeof(double));
        bsp_sync();
        for (int i = 1; i <= count; i++)
            next[i] = (cells[i - 1] + cells[i + 1]) / 2;
        for (int i = 1; i <= count; i++)
            cells[i] = next[i];
    }

    for (int i = 1; i <= count; i++)
        printf("cell %d: %ld/1000\n", first + i - 1, (long)(cells[i] * 1000 + 0.5));
    bsp_end();
    return 0;
}
