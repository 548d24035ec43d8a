/* Sheet 10, solved: heat in a rod, with a halo of K cells that is exchanged every K steps. */
#include <bsp.h>
#include <stdio.h>

#ifndef N
#define N 96
#endif
#ifndef STEPS
#define STEPS 12
#endif
#ifndef K
#define K 1
#endif
#ifndef SEED
#define SEED 1
#endif

/* Rank s has cells s N/p to (s + 1) N/p. They stand from rod[K] on, with K cells of each neighbour around them. p divides N, and K divides
   STEPS. The ends of the rod stay as they are. */
static int rod[N + 2 * K], next[N + 2 * K];

/* The outermost K cells go into the halos of both neighbours. rod is registered. */
static void exchange(int p, int s, int n)
{
    if (s > 0)
        bsp_put(s - 1, rod + K, rod, (K + n) * (int)sizeof(int), K * (int)sizeof(int));
    if (s < p - 1)
        bsp_put(s + 1, rod + n, rod, 0, K * (int)sizeof(int));
    bsp_sync();
}

/* A step of the cells from first up to the one before end, as they stand in rod. */
static void step(int p, int s, int n, int first, int end)
{
    for (int i = first; i < end; i++) {
        int cell = s * n + i - K;
        int is_end = cell <= 0 || cell >= p * n - 1;
        next[i] = is_end ? rod[i] : (rod[i - 1] + 2 * rod[i] + rod[i + 1]) / 4;
    }
    for (int i = first; i < end; i++)
        rod[i] = next[i];
}

/* All steps. */
static void run(int p, int s, int n)
{
    for (int done = 0; done < STEPS; done += K) {
        exchange(p, s, n);
        /* Of the halo one cell less is known after each step, so that one less is computed. */
        for (int k = 1; k <= K; k++)
            step(p, s, n, k, n + 2 * K - k);
    }
}

int main(void)
{
    int p, s, n;
    unsigned sum = 0;

    bsp_begin(bsp_nprocs());
    p = bsp_nprocs();
    s = bsp_pid();
    n = N / p;
    for (int i = 0; i < n; i++)
        rod[K + i] = (int)(((unsigned)(s * n + i + SEED) * 2654435761u) >> 16);
    bsp_push_reg(rod, sizeof rod);
    bsp_sync();

    run(p, s, n);

    for (int i = 0; i < n; i++)
        sum += (unsigned)(i + 1) * (unsigned)rod[K + i];
    printf("rank %d: %d .. %d, weighted %u\n", s, rod[K], rod[K + n - 1], sum);
    bsp_end();
    return 0;
}
