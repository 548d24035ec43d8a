/* Sheet 4: y = A x, with A over the ranks by rows (given), by columns, or by blocks (yours). */
#include <bsp.h>
#include <stdio.h>

#ifndef N
#define N 36
#endif
#ifndef WAY
#define WAY 1
#endif
#ifndef SEED
#define SEED 1
#endif

/* Rank s has numbers s N/p to (s + 1) N/p of x and wants those of y. p divides N. */
static int x[N], y[N], parts[N * N];

static int a(int i, int j)
{
    return (i * 7 + j * 3 + SEED) % 10;
}

static void put_ints(int t, const int *from, int *to, int at, int count)
{
    bsp_put(t, from, to, at * (int)sizeof(int), count * (int)sizeof(int));
}

/* Way 1, by rows: every rank wants all of x, and then has what it needs. */
static void by_rows(int p, int s)
{
    int n = N / p;

    for (int t = 0; t < p; t++)
        if (t != s)
            put_ints(t, x + s * n, x, s * n, n);
    bsp_sync();
    for (int i = s * n; i < (s + 1) * n; i++) {
        y[i] = 0;
        for (int j = 0; j < N; j++)
            y[i] += a(i, j) * x[j];
    }
}

/* Way 2, by columns: rank s has columns s N/p on, and so a part of each number of y. Parts for the numbers of rank t go there, into row s of
   parts, whose rows have N/p numbers. */
static void by_columns(int p, int s)
{
    (void)p, (void)s; /* yours */
}

/* Way 3, by blocks: the ranks are a square of q times q, and rank r q + c has the rows from r N/q and the columns from c N/q on. x goes to the
   ranks of its columns; the parts of y go to the rank that wants them. */
static void by_blocks(int p, int s)
{
    (void)p, (void)s; /* yours */
}

int main(void)
{
    int p, s;

    bsp_begin(bsp_nprocs());
    p = bsp_nprocs();
    s = bsp_pid();
    for (int i = s * (N / p); i < (s + 1) * (N / p); i++)
        x[i] = (i * i + SEED) % 7;
    bsp_push_reg(x, sizeof x);
    bsp_push_reg(parts, sizeof parts);
    bsp_sync();

    if (WAY == 1)
        by_rows(p, s);
    else if (WAY == 2)
        by_columns(p, s);
    else
        by_blocks(p, s);

    printf("rank %d:", s);
    for (int i = s * (N / p); i < (s + 1) * (N / p); i++)
        printf(" %d", y[i]);
    printf("\n");
    bsp_end();
    return 0;
}
