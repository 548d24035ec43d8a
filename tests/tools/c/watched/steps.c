/* Three supersteps that write, and then one without an end in rank 1. */
#include <bsp.h>
#include <stdio.h>

static volatile int steps;

static void spin(void)
{
    for (;;)
        steps++;
}

int main(void)
{
    bsp_begin(bsp_nprocs());
    for (int i = 0; i < 3; i++) {
        if (bsp_pid() == 0)
            printf("step %d\n", i);
        else
            fprintf(stderr, "rank %d in step %d\n", bsp_pid(), i);
        bsp_sync();
    }
    if (bsp_pid() == 1)
        spin();
    bsp_end();
    return 0;
}
