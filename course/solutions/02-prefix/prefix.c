/* Sheet 2, solved: the N numbers lie over the ranks in blocks, and each number is to become the sum of all up to it. */
#include <bsp.h>
#include <stdio.h>

#ifndef N
#define N 56
#endif
#ifndef WAY
#define WAY 1
#endif
#ifndef SEED
#define SEED 1
#endif
#define MOST 1024

static int numbers[N], sums[MOST];

/* Way 1, in one superstep: each rank puts its sum to all ranks above it. The sum of those below is answered. sums is registered. */
static int before_by_puts(int p, int s, int own)
{
    int sum = 0;

    for (int t = s + 1; t < p; t++)
        bsp_put(t, &own, sums, s * (int)sizeof(int), sizeof own);
    bsp_sync();
    for (int t = 0; t < s; t++)
        sum += sums[t];
    return sum;
}

/* Way 2, by doubling: after k supersteps a rank knows the sum of the 2^k blocks that end with its own. sums is registered. */
static int before_by_doubling(int p, int s, int own)
{
    int got = 0;

    sums[0] = own;
    for (int d = 1; d < p; d *= 2) {
        if (s >= d)
            bsp_get(s - d, sums, 0, &got, sizeof got);
        bsp_sync();
        if (s >= d)
            sums[0] += got;
    }
    return sums[0] - own;
}

int main(void)
{
    int p, s, size, first, count, own = 0, before;

    bsp_begin(bsp_nprocs());
    p = bsp_nprocs();
    s = bsp_pid();
    /* Of the N numbers rank s has those from first on; the last blocks may be shorter or empty. */
    size = (N + p - 1) / p;
    first = s * size < N ? s * size : N;
    count = N - first < size ? N - first : size;
    for (int i = 0; i < count; i++) {
        numbers[i] = (int)(((unsigned)(first + i + SEED) * 2654435761u) >> 24);
        own += numbers[i];
    }
    bsp_push_reg(sums, sizeof sums);
    bsp_sync();

    before = WAY == 1 ? before_by_puts(p, s, own) : before_by_doubling(p, s, own);

    for (int i = 0; i < count; i++) {
        before += numbers[i];
        numbers[i] = before;
    }
    printf("rank %d:", s);
    for (int i = 0; i < count; i++)
        printf(" %d", numbers[i]);
    printf("\n");
    bsp_end();
    return 0;
}
