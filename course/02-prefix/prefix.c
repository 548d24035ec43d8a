/* Sheet 2: the N numbers lie over the ranks in blocks, and each number is to become the sum of all up to it. What is yours is the sum of the
   blocks before a rank's own, in two ways. */
#include <bsp.h>
#include <stdio.h>

#ifndef N
#define N 56
#endif
#ifndef WAY
#define WAY 1
#endif
#ifndef SEED
#define SEED 1
#endif
#define MOST 1024

static int numbers[N], sums[MOST];

/* Way 1, in one superstep: each rank puts its sum to all ranks above it. The sum of those below is answered. sums is registered. */
static int before_by_puts(int p, int s, int own)
{
    (void)p, (void)s, (void)own; /* yours */
    return 0;
}

/* Way 2, by doubling: after k supersteps a rank knows the sum of the 2^k blocks that end with its own. sums is registered. */
static int before_by_doubling(int p, int s, int own)
{
    (void)p, (void)s, (void)own; /* yours */
    return 0;
}

int main(void)
{
    int p, s, size, first, count, own = 0, before;

    bsp_begin(bsp_nprocs());
    p = bsp_nprocs();
    s = bsp_pid();
    /* Of the N numbers rank s has those from first on; the last blocks may be shorter or empty. */
    size = (N + p - 1) / p;
    first = s * size < N ? s * size : N;
    count = N - first < size ? N - first : size;
    for (int i = 0; i < count; i++) {
        numbers[i] = (int)(((unsigned)(first + i + SEED) * 2654435761u) >> 24);
        own += numbers[i];
    }
    bsp_push_reg(sums, sizeof sums);
    bsp_sync();

    before = WAY == 1 ? before_by_puts(p, s, own) : before_by_doubling(p, s, own);

    for (int i = 0; i < count; i++) {
        before += numbers[i];
        numbers[i] = before;
    }
    printf("rank %d:", s);
    for (int i = 0; i < count; i++)
        printf(" %d", numbers[i]);
    printf("\n");
    bsp_end();
    return 0;
}
