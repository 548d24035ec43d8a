/* Sheet 8, solved: LU decomposition with partial pivoting, with the rows of the matrix over the ranks cyclically. */
#include <bsp.h>
#include <math.h>
#include <stdio.h>

#ifndef N
#define N 12
#endif
#ifndef SEED
#define SEED 1
#endif
#define MOST 1024

/* What a rank offers in a step: the greatest number of the column that it has, without its sign, and the row in which it stands. */
struct offer {
    double size;
    int row;
};

/* Rank i mod p has row i of a. Instead of exchanging rows, a row that was a pivot's is marked as used. */
static double a[N][N], pivot[N];
static int used[N];
static struct offer offers[MOST];

/* The row whose number in column k is the greatest, of those that are not used; the first of them if there are several. All ranks find the
   same one, in one superstep. offers is registered. */
static int pivot_row(int p, int s, int k)
{
    struct offer own = {-1, N};
    int best = 0;

    for (int i = s; i < N; i += p)
        if (!used[i] && fabs(a[i][k]) > own.size)
            own = (struct offer){fabs(a[i][k]), i};
    for (int t = 0; t < p; t++)
        bsp_put(t, &own, offers, s * (int)sizeof own, sizeof own);
    bsp_sync();
    for (int t = 1; t < p; t++)
        if (offers[t].size > offers[best].size || (offers[t].size == offers[best].size && offers[t].row < offers[best].row))
            best = t;
    return offers[best].row;
}

/* The row comes into pivot of all ranks, from column k on, in one superstep. pivot is registered. */
static void give_row(int p, int s, int row, int k)
{
    for (int t = 0; t < p && row % p == s; t++)
        bsp_put(t, &a[row][k], pivot, k * (int)sizeof(double), (N - k) * (int)sizeof(double));
    bsp_sync();
}

int main(void)
{
    int p, s;
    unsigned random = SEED;

    bsp_begin(bsp_nprocs());
    p = bsp_nprocs();
    s = bsp_pid();
    for (int i = 0; i < N; i++)
        for (int j = 0; j < N; j++) {
            random = random * 1664525 + 1013904223;
            if (i % p == s)
                a[i][j] = (double)(int)(random >> 16 & 255) - 128;
        }
    bsp_push_reg(offers, sizeof offers);
    bsp_push_reg(pivot, sizeof pivot);
    bsp_sync();

    for (int k = 0; k < N; k++) {
        int row = pivot_row(p, s, k);
        used[row] = 1;
        give_row(p, s, row, k);
        if (s == 0)
            printf("step %d: row %d, pivot %.6f\n", k, row, pivot[k]);
        for (int i = s; i < N; i += p) {
            if (used[i])
                continue;
            double factor = a[i][k] / pivot[k];
            for (int j = k; j < N; j++)
                a[i][j] -= factor * pivot[j];
        }
    }
    bsp_end();
    return 0;
}
