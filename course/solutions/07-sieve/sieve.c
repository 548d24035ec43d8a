/* Sheet 7, solved: how many primes there are up to N, by a sieve that is shared. */
#include <bsp.h>
#include <stdio.h>

#ifndef N
#define N 2000
#endif
#define MOST 1024

static char composite[N + 1], small[N + 1];
static int counts[MOST];

/* Sieves the numbers of a rank, and answers how many primes it has. */
static int primes_of(int p, int s)
{
    int size = (N - 1 + p - 1) / p, first = 2 + s * size, end = first + size <= N + 1 ? first + size : N + 1, count = 0;

    /* The primes up to the root of N, which each rank finds by itself: that takes little, and no superstep. */
    for (int i = 2; i * i <= N; i++) {
        if (small[i])
            continue;
        for (int j = i * i; j * j <= N; j += i)
            small[j] = 1;
        /* Its multiples among this rank's numbers, from the first of them that is at least i * i. */
        int from = (first + i - 1) / i * i;
        for (int j = from > i * i ? from : i * i; j < end; j += i)
            composite[j] = 1;
    }
    for (int i = first; i < end; i++)
        count += !composite[i];
    return count;
}

int main(void)
{
    int p, s, own, whole = 0;

    bsp_begin(bsp_nprocs());
    p = bsp_nprocs();
    s = bsp_pid();
    bsp_push_reg(counts, sizeof counts);
    bsp_sync();

    own = primes_of(p, s);

    for (int t = 0; t < p; t++)
        bsp_put(t, &own, counts, s * (int)sizeof own, sizeof own);
    bsp_sync();
    for (int t = 0; t < p; t++)
        whole += counts[t];
    if (s == 0)
        printf("%d primes up to %d\n", whole, N);
    bsp_end();
    return 0;
}
