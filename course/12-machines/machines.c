/* Sheet 12: a program that knows the machine, and broadcasts in the way that costs less there. What each way costs is yours to predict. */
#include <bsp.h>
#include <stdio.h>

#ifndef N
#define N 64
#endif
/* The machine: ticks for a byte of h, and for the end of a superstep. */
#ifndef G
#define G 1
#endif
#ifndef L
#define L 0
#endif
#ifndef SEED
#define SEED 1
#endif

static int x[N];

/* What a broadcast of n bytes costs in one phase, and in two: g h + l over its supersteps. */
static long one_phase_costs(long n, long p, long g, long l)
{
    return n + p + g + l; /* yours */
}

static long two_phases_cost(long n, long p, long g, long l)
{
    return n + p + g + l; /* yours */
}

static void in_one_phase(int p, int s)
{
    for (int t = 1; t < p && s == 0; t++)
        bsp_put(t, x, x, 0, sizeof x);
    bsp_sync();
}

/* p divides N. */
static void in_two_phases(int p, int s)
{
    int n = N / p, size = n * (int)sizeof(int);

    for (int t = 1; t < p && s == 0; t++)
        bsp_put(t, x + t * n, x, t * size, size);
    bsp_sync();
    for (int t = 0; t < p; t++)
        if (t != s)
            bsp_put(t, x + s * n, x, s * size, size);
    bsp_sync();
}

int main(void)
{
    int p, s;
    long one, two;
    unsigned sum = 0;

    bsp_begin(bsp_nprocs());
    p = bsp_nprocs();
    s = bsp_pid();
    for (int i = 0; i < N && s == 0; i++)
        x[i] = (int)(((unsigned)(i + SEED) * 2654435761u) >> 20);
    bsp_push_reg(x, sizeof x);
    bsp_sync();

    one = one_phase_costs(sizeof x, p, G, L);
    two = two_phases_cost(sizeof x, p, G, L);
    if (one <= two)
        in_one_phase(p, s);
    else
        in_two_phases(p, s);

    for (int i = 0; i < N; i++)
        sum += (unsigned)(i + 1) * (unsigned)x[i];
    if (s == p - 1)
        printf("one phase %ld, two phases %ld: %s; weighted %u\n", one, two, one <= two ? "one" : "two", sum);
    bsp_end();
    return 0;
}
