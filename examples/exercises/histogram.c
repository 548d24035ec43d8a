/* Exercise 3: each rank counts numbers in BINS bins, and rank 0 wants the sums of all ranks' counts. It works, and costs too much: mend it.
   Rank 0 says whether the sums are right. */
#include <bsp.h>
#include <stdio.h>
#include <stdlib.h>

#ifndef BINS
#define BINS 240
#endif

static int counts[BINS], total[BINS];

/* The sums come into total of rank 0. BINS is a multiple of p. */
static void add_up(int p, int s)
{
    int *all = malloc((size_t)p * sizeof counts);

    if (all == NULL)
        bsp_abort("no memory for %d tables\n", p);
    bsp_push_reg(all, p * (int)sizeof counts);
    bsp_sync();

    bsp_put(0, counts, all, s * (int)sizeof counts, sizeof counts);
    bsp_sync();

    for (int i = 0; i < BINS && s == 0; i++)
        for (int t = 0; t < p; t++)
            total[i] += all[t * BINS + i];
    bsp_pop_reg(all);
    free(all);
}

int main(void)
{
    int p, s, wrong = 0;

    bsp_begin(bsp_nprocs());
    p = bsp_nprocs();
    s = bsp_pid();
    if (BINS % p != 0)
        bsp_abort("%d bins are no multiple of %d ranks\n", BINS, p);
    for (int i = 0; i < BINS; i++)
        counts[i] = i + s;

    add_up(p, s);

    for (int i = 0; i < BINS && s == 0; i++) {
        int wanted = p * i + p * (p - 1) / 2;
        if (total[i] != wanted && wrong++ == 0)
            printf("bin %d is %d, and %d was wanted\n", i, total[i], wanted);
    }
    if (wrong > 1)
        printf("%d bins are wrong\n", wrong);
    else if (wrong == 0 && s == 0)
        printf("right\n");
    bsp_end();
    exit(wrong > 0 ? EXIT_FAILURE : EXIT_SUCCESS);
}
