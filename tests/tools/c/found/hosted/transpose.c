/* A matrix by rows is transposed. */
#include <bsp.h>
#include <stdio.h>
#include <stdlib.h>

int main(void)
{
    bsp_begin(bsp_nprocs());
    {
        int p = bsp_nprocs(), s = bsp_pid(), j, i;
        int *row = calloc(p, sizeof *row), *column = calloc(p, sizeof *column);
        for (j = 0; j < p; j++)
            row[j] = 10 * s + j;
        bsp_push_reg(column, p * (int)sizeof *column);
        bsp_sync();
        for (j = 0; j < p; j++)
            bsp_put(j, &row[j], column, s * (int)sizeof *column, sizeof *column);
        bsp_sync();
        for (i = 0; i < p; i++)
            printf("%02d%c", column[i], i + 1 < p ? ' ' : '\n');
        free(row);
        free(column);
    }
    bsp_end();
    return 0;
}
