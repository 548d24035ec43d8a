/* Partial sums by doubling. */
#include <bsp.h>
#include <stdio.h>

int main(void)
{
    int i, left, right;
    bsp_begin(bsp_nprocs());
    right = bsp_pid() + 1;
    bsp_push_reg(&left, sizeof left);
    bsp_sync();
    for (i = 1; i < bsp_nprocs(); i *= 2) {
        if (bsp_pid() + i < bsp_nprocs())
            bsp_put(bsp_pid() + i, &right, &left, 0, sizeof(int));
        bsp_sync();
        if (bsp_pid() >= i)
            right = left + right;
    }
    bsp_pop_reg(&left);
    printf("rank %d has %d\n", bsp_pid(), right);
    bsp_end();
    return 0;
}
