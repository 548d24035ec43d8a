/* Sheet 7: how many primes there are up to N. It works, and every rank does all of the work: share it. */
#include <bsp.h>
#include <stdio.h>

#ifndef N
#define N 2000
#endif
#define MOST 1024

static char composite[N + 1], small[N + 1];
static int counts[MOST];

/* Sieves the numbers of a rank, and answers how many primes it has. */
static int primes_of(int p, int s)
{
    int count = 0;

    (void)p, (void)small;
    for (int i = 2; i * i <= N; i++)
        if (!composite[i])
            for (int j = i * i; j <= N; j += i)
                composite[j] = 1;
    for (int i = 2; i <= N && s == 0; i++)
        count += !composite[i];
    return count;
}

int main(void)
{
    int p, s, own, whole = 0;

    bsp_begin(bsp_nprocs());
    p = bsp_nprocs();
    s = bsp_pid();
    bsp_push_reg(counts, sizeof counts);
    bsp_sync();

    own = primes_of(p, s);

    for (int t = 0; t < p; t++)
        bsp_put(t, &own, counts, s * (int)sizeof own, sizeof own);
    bsp_sync();
    for (int t = 0; t < p; t++)
        whole += counts[t];
    if (s == 0)
        printf("%d primes up to %d\n", whole, N);
    bsp_end();
    return 0;
}
