/* Sheet 6, solved: sample sort by regular sampling. */
#include <bsp.h>
#include <stdio.h>
#include <stdlib.h>

#ifndef N
#define N 160
#endif
#ifndef SEED
#define SEED 1
#endif
#define MOST 64

/* Rank s has count numbers. Of the p samples of each rank t there is room from samples + t p on. p is 64 at most. */
static int numbers[N], count, samples[MOST * MOST], splitters[MOST];

static int compare(const void *a, const void *b)
{
    int one = *(const int *)a, other = *(const int *)b;

    return (one > other) - (one < other);
}

/* Each rank takes p samples at equal distances from its sorted numbers, and puts them to all ranks. Then each sorts all samples, and takes
   the p - 1 splitters from them at equal distances. samples is registered. */
static void find_splitters(int p, int s)
{
    int own[MOST];

    for (int i = 0; i < p; i++)
        own[i] = numbers[(long)i * count / p];
    for (int t = 0; t < p; t++)
        bsp_put(t, own, samples, s * p * (int)sizeof(int), p * (int)sizeof(int));
    bsp_sync();
    qsort(samples, (size_t)(p * p), sizeof(int), compare);
    for (int t = 1; t < p; t++)
        splitters[t - 1] = samples[t * p];
}

/* Numbers below the first splitter go to rank 0, those from it on and below the second to rank 1, and so on: one message to each rank that
   gets any. What comes is sorted again. */
static void exchange(int p)
{
    int messages, bytes, from = 0;

    for (int t = 0; t < p; t++) {
        int to = from;
        while (to < count && (t == p - 1 || numbers[to] < splitters[t]))
            to++;
        if (to > from)
            bsp_send(t, NULL, numbers + from, (to - from) * (int)sizeof(int));
        from = to;
    }
    bsp_sync();
    count = 0;
    bsp_qsize(&messages, &bytes);
    for (int i = 0; i < messages; i++) {
        int size, tag;
        bsp_get_tag(&size, &tag);
        bsp_move(numbers + count, size);
        count += size / (int)sizeof(int);
    }
    qsort(numbers, (size_t)count, sizeof(int), compare);
}

int main(void)
{
    int p, s;
    unsigned random = SEED;

    bsp_begin(bsp_nprocs());
    p = bsp_nprocs();
    s = bsp_pid();
    for (int i = 0; i < N; i++) {
        random = random * 1664525 + 1013904223;
        if (i % p == s)
            numbers[count++] = (int)(random >> 16 & 1023);
    }
    bsp_push_reg(samples, sizeof samples);
    bsp_sync();
    qsort(numbers, (size_t)count, sizeof(int), compare);

    find_splitters(p, s);
    exchange(p);

    for (int i = 0; i < count; i++)
        printf("%d\n", numbers[i]);
    bsp_end();
    return 0;
}
