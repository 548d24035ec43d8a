/* Sample sort of the numbers in the input: each rank sorts its share of them and sends p samples to every rank. The samples split
   the numbers into p parts of about the same size; each rank sends every part to the rank that is to have it, which sorts what
   it gets. The ranks' outputs, one after another, are all numbers in order. */
#include <bsp.h>
#include <stdio.h>
#include <stdlib.h>
#include <string.h>

#define MOST 10000

static int numbers[MOST];

static int compare(const void *left, const void *right)
{
    int a = *(const int *)left, b = *(const int *)right;
    return (a > b) - (a < b);
}

/* Reads the input, of which each rank has a cursor of its own, and keeps the share of rank s. */
static int read_share(int p, int s)
{
    int count = 0, number, first, after;

    while (scanf("%d", &number) == 1) {
        if (count == MOST)
            bsp_abort("rank %d: there are more than %d numbers\n", s, MOST);
        numbers[count++] = number;
    }
    first = count * s / p;
    after = count * (s + 1) / p;
    memmove(numbers, numbers + first, (size_t)(after - first) * sizeof(int));
    return after - first;
}

/* Moves the payloads of all messages that came into an array of their own, and sorts it. */
static int *received(int *count)
{
    int messages, bytes, at = 0;
    int *all;

    bsp_qsize(&messages, &bytes);
    *count = bytes / (int)sizeof(int);
    all = malloc((size_t)bytes + 1);
    if (all == NULL)
        bsp_abort("no memory for %d numbers\n", *count);
    for (; messages > 0; messages--) {
        int size;
        bsp_get_tag(&size, NULL);
        bsp_move(all + at, size);
        at += size / (int)sizeof(int);
    }
    qsort(all, (size_t)*count, sizeof(int), compare);
    return all;
}

int main(void)
{
    int p, s, count, samples, from = 0;
    int *sample, *own;

    bsp_begin(bsp_nprocs());
    p = bsp_nprocs();
    s = bsp_pid();
    count = read_share(p, s);
    qsort(numbers, (size_t)count, sizeof(int), compare);

    for (int i = 0; i < p && count > 0; i++)
        for (int t = 0; t < p; t++)
            bsp_send(t, NULL, &numbers[i * count / p], sizeof(int));
    bsp_sync();

    sample = received(&samples);
    for (int t = 0; t < p; t++) {
        int after = from;
        while (after < count && (t == p - 1 || numbers[after] < sample[(t + 1) * samples / p]))
            after++;
        if (after > from)
            bsp_send(t, NULL, &numbers[from], (after - from) * (int)sizeof(int));
        from = after;
    }
    free(sample);
    bsp_sync();

    own = received(&count);
    for (int i = 0; i < count; i++)
        printf("%d\n", own[i]);
    free(own);
    bsp_end();
    return 0;
}
