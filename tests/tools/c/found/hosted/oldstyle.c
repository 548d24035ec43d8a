/* C of the eighties: functions without prototypes, a void main, and int by default. */
#include "bsp.h"
#include <stdio.h>

int cube(), total;

main(argc, argv)
int argc;
char *argv[];
{
    register i;
    int sums[32];
    bsp_begin(bsp_nprocs());
    bsp_push_reg(sums, sizeof(sums));
    bsp_sync();
    for (i = bsp_pid(); i < 10; i += bsp_nprocs())
        total += cube(i);
    bsp_put(0, &total, sums, bsp_pid() * sizeof(int), sizeof(int));
    bsp_sync();
    if (bsp_pid() == 0) {
        for (total = i = 0; i < bsp_nprocs(); i++)
            total += sums[i];
        printf("%d\n", total);
    }
    bsp_end();
    return 0;
}

int cube(n)
int n;
{
    return n * n * n;
}
