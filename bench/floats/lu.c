/* LU decomposition of a matrix of N rows and columns with partial pivoting. Column j is on rank j mod p, as in examples/c/lu.c: in step k
   the rank of column k finds the pivot, and sends its row and the multipliers to every rank, which swaps rows and subtracts. */
#include <bsp.h>
#include <math.h>

#include "result.h"

#ifndef N
#define N 128
#endif

/* The columns of this rank: column j is columns[j / p]. Rank 0 gets all of them. */
static double columns[N][N], whole[N][N];

/* What step k sends. */
static double multipliers[N];
static int pivot;

/* Finds the pivot of step k in its column, and what the rows below it are multiplied by. */
static void find_pivot(const double *column, int k)
{
    int p = bsp_nprocs();

    pivot = k;
    for (int i = k + 1; i < N; i++)
        if (fabs(column[i]) > fabs(column[pivot]))
            pivot = i;
    for (int i = k + 1; i < N; i++)
        multipliers[i] = column[i == pivot ? k : i] / column[pivot];
    for (int t = 0; t < p; t++)
        if (t != bsp_pid()) {
            bsp_put(t, &pivot, &pivot, 0, sizeof pivot);
            bsp_put(t, &multipliers[k + 1], multipliers, (k + 1) * (int)sizeof(double), (N - k - 1) * (int)sizeof(double));
        }
}

/* Step k in column j. */
static void subtract(double *column, int j, int k)
{
    double top = column[pivot];

    column[pivot] = column[k];
    column[k] = top;
    if (j == k)
        for (int i = k + 1; i < N; i++)
            column[i] = multipliers[i];
    else if (j > k)
        for (int i = k + 1; i < N; i++)
            column[i] -= multipliers[i] * top;
}

int main(void)
{
    bsp_begin(bsp_nprocs());
    int p = bsp_nprocs(), s = bsp_pid();
    for (int j = s; j < N; j += p)
        for (int i = 0; i < N; i++)
            columns[j / p][i] = some_number(N * i + j);
    bsp_push_reg(&pivot, sizeof pivot);
    bsp_push_reg(multipliers, sizeof multipliers);
    bsp_push_reg(whole, sizeof whole);
    bsp_sync();

    for (int k = 0; k < N; k++) {
        if (k % p == s)
            find_pivot(columns[k / p], k);
        bsp_sync();
        for (int j = s; j < N; j += p)
            subtract(columns[j / p], j, k);
    }
    for (int j = s; j < N; j += p)
        bsp_put(0, columns[j / p], whole, j * (int)sizeof whole[0], sizeof whole[0]);
    bsp_sync();

    if (s == 0)
        print_result("last pivot", whole[N - 1][N - 1], whole, sizeof whole);
    bsp_end();
    return 0;
}
