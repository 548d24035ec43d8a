/* Sheet 11: all pairs of N numbers are compared, and rank 0 wants a table of how far they lie apart. It works, and costs too much twice: a bad w,
   and a bad h. Mend both. */
#include <bsp.h>
#include <stdio.h>

#ifndef N
#define N 120
#endif
#ifndef BINS
#define BINS 64
#endif
#ifndef SEED
#define SEED 1
#endif
#define MOST 64

static int number[N], table[BINS], tables[MOST * BINS], whole[BINS];

/* Counts the pairs i < j of this rank into table. */
static void count_pairs(int p, int s)
{
    int size = (N + p - 1) / p;

    for (int i = s * size; i < (s + 1) * size && i < N; i++)
        for (int j = i + 1; j < N; j++) {
            int apart = number[i] < number[j] ? number[j] - number[i] : number[i] - number[j];
            table[apart % BINS]++;
        }
}

/* The sums of all tables come into whole of rank 0. tables and whole are registered. p divides BINS. */
static void add_up(int p, int s)
{
    bsp_put(0, table, tables, s * (int)sizeof table, sizeof table);
    bsp_sync();
    for (int t = 0; t < p && s == 0; t++)
        for (int i = 0; i < BINS; i++)
            whole[i] += tables[t * BINS + i];
}

int main(void)
{
    int p, s;
    unsigned sum = 0;

    bsp_begin(bsp_nprocs());
    p = bsp_nprocs();
    s = bsp_pid();
    for (int i = 0; i < N; i++)
        number[i] = (int)(((unsigned)(i + SEED) * 2654435761u) >> 20);
    bsp_push_reg(tables, sizeof tables);
    bsp_push_reg(whole, sizeof whole);
    bsp_sync();

    count_pairs(p, s);
    add_up(p, s);

    for (int i = 0; i < BINS && s == 0; i++)
        sum += (unsigned)(i + 1) * (unsigned)whole[i];
    if (s == 0)
        printf("bin 0: %d, bin %d: %d, weighted %u\n", whole[0], BINS - 1, whole[BINS - 1], sum);
    bsp_end();
    return 0;
}
