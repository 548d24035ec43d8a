/* Sheet 6: sample sort by regular sampling. Two functions are yours: the splitters, and the exchange. */
#include <bsp.h>
#include <stdio.h>
#include <stdlib.h>

#ifndef N
#define N 160
#endif
#ifndef SEED
#define SEED 1
#endif
#define MOST 64

/* Rank s has count numbers. Of the p samples of each rank t there is room from samples + t p on. p is 64 at most. */
static int numbers[N], count, samples[MOST * MOST], splitters[MOST];

static int compare(const void *a, const void *b)
{
    int one = *(const int *)a, other = *(const int *)b;

    return (one > other) - (one < other);
}

/* Each rank takes p samples at equal distances from its sorted numbers, and puts them to all ranks. Then each sorts all samples, and takes
   the p - 1 splitters from them at equal distances. samples is registered. */
static void find_splitters(int p, int s)
{
    (void)p, (void)s, (void)samples, (void)splitters; /* yours */
}

/* Numbers below the first splitter go to rank 0, those from it on and below the second to rank 1, and so on: one message to each rank that
   gets any. What comes is sorted again. */
static void exchange(int p)
{
    (void)p; /* yours */
}

int main(void)
{
    int p, s;
    unsigned random = SEED;

    bsp_begin(bsp_nprocs());
    p = bsp_nprocs();
    s = bsp_pid();
    for (int i = 0; i < N; i++) {
        random = random * 1664525 + 1013904223;
        if (i % p == s)
            numbers[count++] = (int)(random >> 16 & 1023);
    }
    bsp_push_reg(samples, sizeof samples);
    bsp_sync();
    qsort(numbers, (size_t)count, sizeof(int), compare);

    find_splitters(p, s);
    exchange(p);

    for (int i = 0; i < count; i++)
        printf("%d\n", numbers[i]);
    bsp_end();
    return 0;
}
