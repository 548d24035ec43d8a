/* A sum that begins with no value. */
#include <bsp.h>
#include <stdio.h>

static int values[4] = {1, 2, 3, 4};

int main(void)
{
    int sum, i;
    bsp_begin(bsp_nprocs());
    bsp_sync();
    for (i = 0; i < 4; i++)
        sum += values[i]; /* here */
    printf("%d\n", sum);
    bsp_end();
    return 0;
}
