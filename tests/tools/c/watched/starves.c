/* Prints a report of little work, and then has the emulator move more bytes than the host has memory for: that ends without a report. */
#include <bsp.h>
#include <stdio.h>

static char bytes[1 << 18];

int main(void)
{
    bsp_begin(bsp_nprocs());
    if (bsp_pid() == 0)
        printf("it\nsuperstep 0: w 1 h 0 m 0 last\ntotal 2\nended\n");
    bsp_push_reg(bytes, sizeof bytes);
    bsp_sync();
    for (int i = 0; i < 63; i++)
        bsp_put(bsp_pid(), bytes, bytes, 0, sizeof bytes);
    bsp_sync();
    bsp_end();
    return 0;
}
