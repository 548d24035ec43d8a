/* Some ten million instructions, and then a store outside the memory. */
#include <bsp.h>

static volatile int sum;

int main(void)
{
    bsp_begin(bsp_nprocs());
    for (int superstep = 0; superstep < 4; superstep++) {
        for (int i = 0; i < 5000000; i++)
            sum += i;
        bsp_sync();
    }
    *(volatile int *)0x7ffffff0 = sum;
    bsp_end();
    return 0;
}
