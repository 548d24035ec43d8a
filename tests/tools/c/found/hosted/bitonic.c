/* Bitonic sort of blocks, on a power of two of ranks. */
#include <bsp.h>
#include <stdio.h>
#include <stdlib.h>
#include <string.h>

#define N 8

static int compare(const void *a, const void *b)
{
    int x = *(const int *)a, y = *(const int *)b;
    return (x > y) - (x < y);
}

static void exchange(int *mine, int *other, int partner, int keep_low)
{
    int both[2 * N];
    bsp_put(partner, mine, other, 0, N * sizeof(int));
    bsp_sync();
    memcpy(both, mine, N * sizeof(int));
    memcpy(both + N, other, N * sizeof(int));
    qsort(both, 2 * N, sizeof(int), compare);
    memcpy(mine, keep_low ? both : both + N, N * sizeof(int));
}

int main(void)
{
    static int mine[N], other[N];
    unsigned seed;
    int p, s, i, k, j;
    bsp_begin(bsp_nprocs());
    p = bsp_nprocs();
    s = bsp_pid();
    seed = 77u + (unsigned)s;
    for (i = 0; i < N; i++) {
        seed = seed * 1103515245u + 12345u;
        mine[i] = (int)(seed >> 20) % 1000;
    }
    bsp_push_reg(other, sizeof other);
    bsp_sync();
    qsort(mine, N, sizeof(int), compare);
    for (k = 2; k <= p; k *= 2)
        for (j = k / 2; j > 0; j /= 2)
            exchange(mine, other, s ^ j, ((s & k) == 0) == ((s & j) == 0));
    for (i = 0; i < N; i++)
        printf("%d ", mine[i]);
    printf("\n");
    bsp_end();
    return 0;
}
