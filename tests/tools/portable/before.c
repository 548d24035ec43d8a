/* What main sets before bsp_begin, and ranks above 0 use. */
#include <bsp.h>
#include <stdio.h>
#include <stdlib.h>

static int unused, size, table[4];

int main(int argc, char **argv)
{
    unused = 3;
    size = argc > 1 ? atoi(argv[1]) : 2;
    table[1] = 5;
    bsp_begin(bsp_nprocs());
    printf("%d\n", size * bsp_pid());
    bsp_end();
    return 0;
}
