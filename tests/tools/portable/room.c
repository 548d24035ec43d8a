/* An array of a function that is taken for zeros. */
#include <bsp.h>
#include <stdio.h>

static int __attribute__((noinline)) greatest(const int *values, int count)
{
    int seen[16], i, most = 0;
    for (i = 0; i < count; i++)
        seen[values[i] % 16] += 1;
    for (i = 0; i < 16; i++)
        most = seen[i] > most ? seen[i] : most;
    return most;
}

int main(void)
{
    int values[5] = {3, 19, 4, 35, 5};
    bsp_begin(bsp_nprocs());
    bsp_sync();
    printf("%d\n", greatest(values, 5)); /* here */
    bsp_end();
    return 0;
}
