/* What a get has read and a put come to one variable: whichever is the later counts. */
#include <bsp.h>
#include <stdio.h>

static int mine;

int main(void)
{
    int theirs = 5;
    bsp_begin(bsp_nprocs());
    mine = 7 * bsp_pid();
    bsp_push_reg(&mine, sizeof mine);
    bsp_sync();
    if (bsp_pid() == 0)
        bsp_get(1, &mine, 0, &mine, sizeof mine); /* here */
    if (bsp_pid() == 1)
        bsp_put(0, &theirs, &mine, 0, sizeof theirs); /* and here */
    bsp_sync();
    if (bsp_pid() == 0)
        printf("%d\n", mine);
    bsp_end();
    return 0;
}
