/* Prefix sums: each rank has some numbers, and wants for each of them the sum of all numbers up to it, over all ranks. The sums of
   ranks are added up in about log2(p) supersteps; in each of them a rank gets what one at twice the distance has. */
#include <bsp.h>
#include <stdio.h>

#define BLOCK 8

int main(void)
{
    int p, s, numbers[BLOCK], sum = 0, before = 0, received = 0;

    bsp_begin(bsp_nprocs());
    p = bsp_nprocs();
    s = bsp_pid();
    for (int i = 0; i < BLOCK; i++) {
        sum += (BLOCK * s + i) % 10;
        numbers[i] = sum;
    }

    /* sum is that of up to d ranks, this one the last; before is the same without this rank. */
    bsp_push_reg(&sum, sizeof sum);
    bsp_sync();
    for (int d = 1; d < p; d *= 2) {
        if (s >= d)
            bsp_get(s - d, &sum, 0, &received, sizeof sum);
        bsp_sync();
        if (s >= d) {
            sum += received;
            before += received;
        }
    }
    bsp_pop_reg(&sum);

    printf("rank %d:", s);
    for (int i = 0; i < BLOCK; i++)
        printf(" %d", before + numbers[i]);
    printf("\n");
    bsp_end();
    return 0;
}
