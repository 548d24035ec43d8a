/* Sheet 1, solved: rank 0 has N numbers, and every rank wants them. WAY says how they get there. */
#include <bsp.h>
#include <stdio.h>

#ifndef N
#define N 64
#endif
#ifndef WAY
#define WAY 1
#endif
#ifndef SEED
#define SEED 1
#endif

static int x[N];

/* Way 1: rank 0 puts all of it to each other rank. */
static void in_one_phase(int p, int s)
{
    for (int t = 1; t < p && s == 0; t++)
        bsp_put(t, x, x, 0, sizeof x);
    bsp_sync();
}

/* Block number b goes to rank t. If p does not divide N, the last blocks are shorter or empty. */
static void put_block(int b, int t, int size)
{
    int first = b * size, count = N - first < size ? N - first : size;

    if (count > 0)
        bsp_put(t, x + first, x, first * (int)sizeof(int), count * (int)sizeof(int));
}

/* Way 2: rank 0 puts a block to each rank; then each rank puts its block to all others. p need not divide N. */
static void in_two_phases(int p, int s)
{
    int size = (N + p - 1) / p;

    for (int t = 1; t < p && s == 0; t++)
        put_block(t, t, size);
    bsp_sync();
    for (int t = 0; t < p; t++)
        if (t != s)
            put_block(s, t, size);
    bsp_sync();
}

/* Way 3: each rank that has the numbers puts them to one that does not: first one rank has them, then 2, 4, 8, .. */
static void by_doubling(int p, int s)
{
    for (int d = 1; d < p; d *= 2) {
        if (s < d && s + d < p)
            bsp_put(s + d, x, x, 0, sizeof x);
        bsp_sync();
    }
}

int main(void)
{
    int p, s;
    unsigned sum = 0, random = SEED;

    bsp_begin(bsp_nprocs());
    p = bsp_nprocs();
    s = bsp_pid();
    for (int i = 0; i < N && s == 0; i++) {
        random = random * 1664525 + 1013904223;
        x[i] = (int)(random >> 16 & 8191);
    }
    bsp_push_reg(x, sizeof x);
    bsp_sync();

    if (WAY == 1)
        in_one_phase(p, s);
    else if (WAY == 2)
        in_two_phases(p, s);
    else
        by_doubling(p, s);

    for (int i = 0; i < N; i++)
        sum += (unsigned)(i + 1) * (unsigned)x[i];
    printf("rank %d: the last is %d, the weighted sum %u\n", s, x[N - 1], sum);
    bsp_end();
    return 0;
}
