/* Exercise 2: rank s has the number (7 s + 3) mod 10, and wants the sum of the numbers of ranks 0 to s. Here that takes about log2(p)
   supersteps; with WAY 2 it is to take one. Each rank says whether its sum is right. */
#include <bsp.h>
#include <stdio.h>
#include <stdlib.h>

#define MOST 1024

#ifndef WAY
#define WAY 1
#endif

static int sums[MOST];

/* In each superstep a rank gets what the rank at twice the distance has, which is the sum of as many numbers. */
static int by_doubling(int p, int s, int number)
{
    int sum = number, received = 0;

    bsp_push_reg(&sum, sizeof sum);
    bsp_sync();
    for (int d = 1; d < p; d *= 2) {
        if (s >= d)
            bsp_get(s - d, &sum, 0, &received, sizeof sum);
        bsp_sync();
        if (s >= d)
            sum += received;
    }
    return sum;
}

/* Each rank puts its number into an entry of sums at every rank that wants it, and adds up what came. */
static int in_one_superstep(int p, int s, int number)
{
    (void)p, (void)s, (void)sums; /* yours */
    return number;
}

int main(void)
{
    int p, s, sum, wanted = 0;

    bsp_begin(bsp_nprocs());
    p = bsp_nprocs();
    s = bsp_pid();
    sum = WAY == 1 ? by_doubling(p, s, (7 * s + 3) % 10) : in_one_superstep(p, s, (7 * s + 3) % 10);

    for (int t = 0; t <= s; t++)
        wanted += (7 * t + 3) % 10;
    if (sum != wanted)
        printf("rank %d: the sum is %d, and %d was wanted\n", s, sum, wanted);
    else
        printf("rank %d: right\n", s);
    bsp_end();
    exit(sum != wanted ? EXIT_FAILURE : EXIT_SUCCESS);
}
