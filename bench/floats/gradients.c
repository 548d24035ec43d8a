/* Conjugate gradients for Laplace's equation on a grid of N x N with five points each, in blocks of rows, STEPS steps. Before each product
   a rank puts its first and last row to the ranks beside it. Inner products are sums of those of rows, in the order of rows, and so the
   same on any number of ranks. */
#include <bsp.h>

#include "result.h"

#ifndef N
#define N 64
#endif
#define STEPS 60

/* Rows 1 to count are this rank's, and the others of its neighbours, or a border of zeros, as are the first and the last column. */
typedef double Rows[N + 2][N + 2];

static Rows x, residual, direction, product;
/* The inner product of each row of the grid. Rank 0 gets what is found. */
static double of_rows[N], whole[N][N];
static int p, s, first, count;

/* The first row of a rank. */
static int first_of(int rank)
{
    return N * rank / p;
}

static double inner(Rows a, Rows b)
{
    double found = 0;

    for (int i = 1; i <= count; i++) {
        double sum = 0;
        for (int j = 1; j <= N; j++)
            sum += a[i][j] * b[i][j];
        of_rows[first + i - 1] = sum;
    }
    for (int t = 0; t < p; t++)
        if (t != s)
            bsp_put(t, &of_rows[first], of_rows, first * (int)sizeof(double), count * (int)sizeof(double));
    bsp_sync();
    for (int i = 0; i < N; i++)
        found += of_rows[i];
    return found;
}

/* The matrix times the direction. */
static void multiply(void)
{
    if (s > 0)
        bsp_put(s - 1, direction[1], direction, (first - first_of(s - 1) + 1) * (int)sizeof direction[0], sizeof direction[0]);
    if (s < p - 1)
        bsp_put(s + 1, direction[count], direction, 0, sizeof direction[0]);
    bsp_sync();
    for (int i = 1; i <= count; i++)
        for (int j = 1; j <= N; j++)
            product[i][j] = 4 * direction[i][j] - direction[i - 1][j] - direction[i + 1][j] - direction[i][j - 1] - direction[i][j + 1];
}

/* a = b + factor * c */
static void add(Rows a, Rows b, double factor, Rows c)
{
    for (int i = 1; i <= count; i++)
        for (int j = 1; j <= N; j++)
            a[i][j] = b[i][j] + factor * c[i][j];
}

int main(void)
{
    bsp_begin(bsp_nprocs());
    p = bsp_nprocs();
    s = bsp_pid();
    first = first_of(s);
    count = first_of(s + 1) - first;
    for (int i = 1; i <= count; i++)
        for (int j = 1; j <= N; j++)
            residual[i][j] = direction[i][j] = some_number(N * (first + i - 1) + j - 1);
    bsp_push_reg(of_rows, sizeof of_rows);
    bsp_push_reg(direction, sizeof direction);
    bsp_push_reg(whole, sizeof whole);
    bsp_sync();

    double size = inner(residual, residual);
    for (int step = 0; step < STEPS; step++) {
        multiply();
        double factor = size / inner(direction, product), size_before = size;
        add(x, x, factor, direction);
        add(residual, residual, -factor, product);
        size = inner(residual, residual);
        add(direction, residual, size / size_before, direction);
    }
    for (int i = 1; i <= count; i++)
        bsp_put(0, &x[i][1], whole, (first + i - 1) * (int)sizeof whole[0], sizeof whole[0]);
    bsp_sync();

    if (s == 0)
        print_result("what is left", size, whole, sizeof whole);
    bsp_end();
    return 0;
}
