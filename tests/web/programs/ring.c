/* A ring: in each of STEPS supersteps every rank puts a number to both ranks beside it. */
#include <bsp.h>
#include <stdio.h>

#ifndef STEPS
#define STEPS 20
#endif

int left, right;

int main(void)
{
    bsp_begin(bsp_nprocs());
    int p = bsp_nprocs(), s = bsp_pid();
    bsp_push_reg(&left, sizeof left);
    bsp_push_reg(&right, sizeof right);
    bsp_sync();
    for (int k = 0; k < STEPS; k++) {
        int mine = s + k;
        bsp_put((s + 1) % p, &mine, &left, 0, sizeof mine);
        bsp_put((s + p - 1) % p, &mine, &right, 0, sizeof mine);
        bsp_sync();
    }
    if (s == 0)
        printf("%d %d\n", left, right);
    bsp_end();
    return 0;
}
