/* Exercise 3, solved: each rank counts numbers in BINS bins, and rank 0 wants the sums of all ranks' counts. Each rank adds up a part of the
   bins. Rank 0 says whether the sums are right. */
#include <bsp.h>
#include <stdio.h>
#include <stdlib.h>

#ifndef BINS
#define BINS 240
#endif

static int counts[BINS], total[BINS];

/* The sums come into total of rank 0. BINS is a multiple of p, so each rank has BINS / p bins to add up. */
static void add_up(int p, int s)
{
    int own = BINS / p, *all = malloc(sizeof counts);

    if (all == NULL)
        bsp_abort("no memory for %d parts of a table\n", p);
    bsp_push_reg(all, sizeof counts);
    bsp_push_reg(total, sizeof total);
    bsp_sync();

    /* What rank t counted in the bins of rank s is part t of all. */
    for (int t = 0; t < p; t++)
        bsp_put(t, counts + t * own, all, s * own * (int)sizeof(int), own * (int)sizeof(int));
    bsp_sync();

    for (int t = 1; t < p; t++)
        for (int i = 0; i < own; i++)
            all[i] += all[t * own + i];
    bsp_put(0, all, total, s * own * (int)sizeof(int), own * (int)sizeof(int));
    bsp_sync();
    bsp_pop_reg(total);
    bsp_pop_reg(all);
    free(all);
}

int main(void)
{
    int p, s, wrong = 0;

    bsp_begin(bsp_nprocs());
    p = bsp_nprocs();
    s = bsp_pid();
    if (BINS % p != 0)
        bsp_abort("%d bins are no multiple of %d ranks\n", BINS, p);
    for (int i = 0; i < BINS; i++)
        counts[i] = i + s;

    add_up(p, s);

    for (int i = 0; i < BINS && s == 0; i++) {
        int wanted = p * i + p * (p - 1) / 2;
        if (total[i] != wanted && wrong++ == 0)
            printf("bin %d is %d, and %d was wanted\n", i, total[i], wanted);
    }
    if (wrong > 1)
        printf("%d bins are wrong\n", wrong);
    else if (wrong == 0 && s == 0)
        printf("right\n");
    bsp_end();
    exit(wrong > 0 ? EXIT_FAILURE : EXIT_SUCCESS);
}
