/* Exercise 1, solved: rank 0 has N numbers, and every rank wants them. WAY says how they come there. In the end each rank
   says whether it has them, and else what it has and what was wanted. */
#include <bsp.h>
#include <stdio.h>
#include <stdlib.h>

#ifndef N
#define N 64
#endif
#ifndef WAY
#define WAY 1
#endif

static int x[N];

/* Rank 0 puts all of it to each other rank. */
static void in_one_phase(int p, int s)
{
    for (int t = 1; t < p && s == 0; t++)
        bsp_put(t, x, x, 0, sizeof x);
    bsp_sync();
}

/* The block of rank s goes to rank t. Where p does not divide N, the last blocks are shorter or empty. */
static void put_block(int s, int t, int size)
{
    int first = s * size, count = N - first < size ? N - first : size;

    if (count > 0)
        bsp_put(t, x + first, x, first * (int)sizeof(int), count * (int)sizeof(int));
}

/* Rank 0 deals out a block to each rank; then each rank puts its block to all others. */
static void in_two_phases(int p, int s)
{
    int size = (N + p - 1) / p;

    for (int t = 1; t < p && s == 0; t++)
        put_block(t, t, size);
    bsp_sync();
    for (int t = 0; t < p; t++)
        if (t != s)
            put_block(s, t, size);
    bsp_sync();
}

/* Each rank that has it puts it to one that has not: one rank has it, then 2, 4, 8, .. */
static void by_doubling(int p, int s)
{
    for (int d = 1; d < p; d *= 2) {
        if (s < d && s + d < p)
            bsp_put(s + d, x, x, 0, sizeof x);
        bsp_sync();
    }
}

int main(void)
{
    int p, s, wrong = 0;

    bsp_begin(bsp_nprocs());
    p = bsp_nprocs();
    s = bsp_pid();
    for (int i = 0; i < N && s == 0; i++)
        x[i] = 1000 + i;
    bsp_push_reg(x, sizeof x);
    bsp_sync();

    if (WAY == 1)
        in_one_phase(p, s);
    else if (WAY == 2)
        in_two_phases(p, s);
    else
        by_doubling(p, s);

    for (int i = 0; i < N; i++)
        if (x[i] != 1000 + i && wrong++ == 0)
            printf("rank %d: x[%d] is %d, and %d was wanted\n", s, i, x[i], 1000 + i);
    if (wrong > 1)
        printf("rank %d: %d numbers are wrong\n", s, wrong);
    else if (wrong == 0)
        printf("rank %d: right\n", s);
    bsp_end();
    exit(wrong > 0 ? EXIT_FAILURE : EXIT_SUCCESS);
}
