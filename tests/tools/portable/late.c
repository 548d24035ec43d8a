/* The target of bsp_hpget is written before bsp_sync, as if what is got came later. */
#include <bsp.h>
#include <stdio.h>

static int mine, theirs;

int main(void)
{
    bsp_begin(bsp_nprocs());
    mine = 7 * bsp_pid();
    bsp_push_reg(&mine, sizeof mine);
    bsp_sync();
    bsp_hpget((bsp_pid() + 1) % bsp_nprocs(), &mine, 0, &theirs, sizeof theirs); /* here */
    theirs = 1000;
    bsp_sync();
    printf("%d\n", theirs);
    bsp_end();
    return 0;
}
