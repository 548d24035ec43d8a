/* Shear sort: the ranks are rows of a square, sorted by turns along rows, snake-like, and along columns. */
#include <bsp.h>
#include <stdio.h>
#include <stdlib.h>

#define SIDE 4

static int row[SIDE], column[SIDE];

static int up(const void *a, const void *b)
{
    return *(const int *)a - *(const int *)b;
}

static int down(const void *a, const void *b)
{
    return up(b, a);
}

int main(void)
{
    int s, phase, i;
    unsigned seed;

    bsp_begin(SIDE);
    s = bsp_pid();
    seed = 17 + s;
    for (i = 0; i < SIDE; i++)
        row[i] = (int)((seed = seed * 69069u + 1u) >> 25);
    bsp_push_reg(row, sizeof row);
    bsp_push_reg(column, sizeof column);
    bsp_sync();
    for (phase = 0; phase < 3; phase++) {
        qsort(row, SIDE, sizeof *row, s % 2 ? down : up);
        for (i = 0; i < SIDE; i++)
            bsp_put(i, &row[i], column, s * sizeof(int), sizeof(int));
        bsp_sync();
        qsort(column, SIDE, sizeof *column, up);
        for (i = 0; i < SIDE; i++)
            bsp_put(i, &column[i], row, s * sizeof(int), sizeof(int));
        bsp_sync();
    }
    qsort(row, SIDE, sizeof *row, s % 2 ? down : up);
    for (i = 0; i < SIDE; i++)
        printf("%4d%s", row[i], i == SIDE - 1 ? "\n" : "");
    bsp_end();
    return EXIT_SUCCESS;
}
