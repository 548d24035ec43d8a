/* Exercise 1: rank 0 has N numbers, and every rank wants them. WAY says how they come there; the first way is here, and the other two are
   yours. In the end each rank says whether it has them, and else what it has and what was wanted. */
#include <bsp.h>
#include <stdio.h>
#include <stdlib.h>

#ifndef N
#define N 64
#endif
#ifndef WAY
#define WAY 1
#endif

static int x[N];

/* Rank 0 puts all of it to each other rank. */
static void in_one_phase(int p, int s)
{
    for (int t = 1; t < p && s == 0; t++)
        bsp_put(t, x, x, 0, sizeof x);
    bsp_sync();
}

/* Rank 0 deals out a block to each rank; then each rank puts its block to all others. */
static void in_two_phases(int p, int s)
{
    (void)p, (void)s; /* yours */
}

/* Each rank that has it puts it to one that has not: one rank has it, then 2, 4, 8, .. */
static void by_doubling(int p, int s)
{
    (void)p, (void)s; /* yours */
}

int main(void)
{
    int p, s, wrong = 0;

    bsp_begin(bsp_nprocs());
    p = bsp_nprocs();
    s = bsp_pid();
    for (int i = 0; i < N && s == 0; i++)
        x[i] = 1000 + i;
    bsp_push_reg(x, sizeof x);
    bsp_sync();

    if (WAY == 1)
        in_one_phase(p, s);
    else if (WAY == 2)
        in_two_phases(p, s);
    else
        by_doubling(p, s);

    for (int i = 0; i < N; i++)
        if (x[i] != 1000 + i && wrong++ == 0)
            printf("rank %d: x[%d] is %d, and %d was wanted\n", s, i, x[i], 1000 + i);
    if (wrong > 1)
        printf("rank %d: %d numbers are wrong\n", s, wrong);
    else if (wrong == 0)
        printf("rank %d: right\n", s);
    bsp_end();
    exit(wrong > 0 ? EXIT_FAILURE : EXIT_SUCCESS);
}
