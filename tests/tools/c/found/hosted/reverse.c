/* An array that is turned round. */
#include "bsp.h"
#include <stdio.h>
#include <stdlib.h>

static void reverse(int *array, int n)
{
    int p = bsp_nprocs(), s = bsp_pid(), i;
    int *temp = malloc(n * sizeof(int));
    bsp_push_reg(temp, n * sizeof(int));
    bsp_sync();
    for (i = 0; i < n; i++)
        bsp_put(p - 1 - s, &array[i], temp, (n - 1 - i) * sizeof(int), sizeof(int));
    bsp_sync();
    bsp_pop_reg(temp);
    for (i = 0; i < n; i++)
        array[i] = temp[i];
    free(temp);
}

int main(int argc, char **argv)
{
    enum { N = 5 };
    int array[N], i;
    bsp_begin(bsp_nprocs());
    for (i = 0; i < N; i++)
        array[i] = bsp_pid() * N + i;
    reverse(array, N);
    printf("%d:", bsp_pid());
    for (i = 0; i < N; i++)
        printf(" %d", array[i]);
    printf("\n");
    bsp_end();
    return 0;
}
