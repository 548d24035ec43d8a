/* A token that goes round, and each adds to it. */
#include <bsp.h>
#include <stdio.h>

int main(void)
{
    long long token = 1;
    int round, holder = 0;
    bsp_begin(bsp_nprocs());
    bsp_push_reg(&token, sizeof token);
    bsp_sync();
    for (round = 0; round < 3 * bsp_nprocs(); round++) {
        int next = (holder + 1) % bsp_nprocs();
        if (holder == bsp_pid()) {
            token = token * 3 + bsp_pid();
            printf("round %d: %lld\n", round, token);
            bsp_put(next, &token, &token, 0, sizeof token);
        }
        bsp_sync();
        holder = next;
    }
    bsp_end();
    return 0;
}
