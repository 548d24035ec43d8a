/* A buffer that is used again while bsp_hpput may still read it. */
#include <bsp.h>
#include <stdio.h>

static int table[64];

int main(void)
{
    int buffer, to;
    bsp_begin(bsp_nprocs());
    bsp_push_reg(table, sizeof table);
    bsp_sync();
    for (to = 0; to < bsp_nprocs(); to++) {
        buffer = 100 * bsp_pid() + to; /* and here */
        bsp_hpput(to, &buffer, table, bsp_pid() * (int)sizeof buffer, sizeof buffer); /* here */
    }
    bsp_sync();
    for (to = 0; to < bsp_nprocs(); to++)
        printf("%d ", table[to]);
    printf("\n");
    bsp_end();
    return 0;
}
