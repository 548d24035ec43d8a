/* Two puts on one counter: the last one wins, whichever that is. */
#include <bsp.h>
#include <stdio.h>

static int counter;

int main(void)
{
    int mine;
    bsp_begin(bsp_nprocs());
    mine = counter + bsp_pid() + 1;
    bsp_push_reg(&counter, sizeof counter);
    bsp_sync();
    bsp_put(0, &mine, &counter, 0, sizeof mine); /* here */
    bsp_sync();
    if (bsp_pid() == 0)
        printf("%d\n", counter);
    bsp_end();
    return 0;
}
