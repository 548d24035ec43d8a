/* The target of bsp_hpget is read before bsp_sync, as if it had still what it had before. */
#include <bsp.h>
#include <stdio.h>

static int mine, theirs;

int main(void)
{
    int before;
    bsp_begin(bsp_nprocs());
    mine = 7 * bsp_pid();
    theirs = -1;
    bsp_push_reg(&mine, sizeof mine);
    bsp_sync();
    bsp_hpget((bsp_pid() + 1) % bsp_nprocs(), &mine, 0, &theirs, sizeof theirs); /* here */
    before = theirs;
    bsp_sync();
    printf("%d, and before it %d\n", theirs, before);
    bsp_end();
    return 0;
}
