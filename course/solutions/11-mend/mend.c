/* Sheet 11, solved: all pairs of N numbers are compared, and rank 0 gets a table of how far they lie apart. */
#include <bsp.h>
#include <stdio.h>

#ifndef N
#define N 120
#endif
#ifndef BINS
#define BINS 64
#endif
#ifndef SEED
#define SEED 1
#endif
#define MOST 64

static int number[N], table[BINS], tables[MOST * BINS], whole[BINS];

/* Counts the pairs i < j of this rank into table. */
static void count_pairs(int p, int s)
{
    /* Number i has N - 1 - i pairs: dealt out cyclically, all ranks get about as many. */
    for (int i = s; i < N; i += p)
        for (int j = i + 1; j < N; j++) {
            int apart = number[i] < number[j] ? number[j] - number[i] : number[i] - number[j];
            table[apart % BINS]++;
        }
}

/* The sums of all tables come into whole of rank 0. tables and whole are registered. p divides BINS. */
static void add_up(int p, int s)
{
    int own = BINS / p;

    /* Each rank adds up a part of the bins: what rank t counted there comes to row t of tables. */
    for (int t = 0; t < p; t++)
        bsp_put(t, table + t * own, tables, s * own * (int)sizeof(int), own * (int)sizeof(int));
    bsp_sync();
    for (int t = 1; t < p; t++)
        for (int i = 0; i < own; i++)
            tables[i] += tables[t * own + i];
    bsp_put(0, tables, whole, s * own * (int)sizeof(int), own * (int)sizeof(int));
    bsp_sync();
}

int main(void)
{
    int p, s;
    unsigned sum = 0;

    bsp_begin(bsp_nprocs());
    p = bsp_nprocs();
    s = bsp_pid();
    for (int i = 0; i < N; i++)
        number[i] = (int)(((unsigned)(i + SEED) * 2654435761u) >> 20);
    bsp_push_reg(tables, sizeof tables);
    bsp_push_reg(whole, sizeof whole);
    bsp_sync();

    count_pairs(p, s);
    add_up(p, s);

    for (int i = 0; i < BINS && s == 0; i++)
        sum += (unsigned)(i + 1) * (unsigned)whole[i];
    if (s == 0)
        printf("bin 0: %d, bin %d: %d, weighted %u\n", whole[0], BINS - 1, whole[BINS - 1], sum);
    bsp_end();
    return 0;
}
