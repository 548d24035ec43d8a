/* The source of bsp_hpget is written by its own rank in the same superstep. */
#include <bsp.h>
#include <stdio.h>

static int mine, theirs;

int main(void)
{
    int i;
    bsp_begin(bsp_nprocs());
    bsp_push_reg(&mine, sizeof mine);
    bsp_sync();
    for (i = 0; i <= bsp_pid(); i++)
        mine += i; /* and here */
    bsp_hpget((bsp_pid() + 1) % bsp_nprocs(), &mine, 0, &theirs, sizeof theirs); /* here */
    bsp_sync();
    printf("%d\n", theirs);
    bsp_end();
    return 0;
}
