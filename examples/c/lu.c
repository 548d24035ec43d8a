/* LU decomposition with partial pivoting. Columns are distributed cyclically: column j is on rank j mod p, so that all ranks
   have work to the end. In step k the rank of column k finds the pivot, and sends its row and the multipliers to every rank,
   which then swaps rows and subtracts in its own columns. */
#include <bsp.h>
#include <stdio.h>

#define N 12

/* The columns of this rank: column j is columns[j / p]. */
static double columns[N][N];

/* What step k sends: the pivot's row, and for each row below k its multiplier. */
static struct {
    double multipliers[N];
    int pivot;
} step;

static double element(int i, int j)
{
    return (double)((7 * i * i + 3 * j * j + 5 * i * j + 2 * i + j) % 19 - 9);
}

static double size_of(double number)
{
    return number < 0 ? -number : number;
}

/* In thousandths, since whole numbers are printed far faster. */
static long thousandths(double number)
{
    return (long)(number * 1000 + (number < 0 ? -0.5 : 0.5));
}

int main(void)
{
    int p, s;

    bsp_begin(bsp_nprocs());
    p = bsp_nprocs();
    s = bsp_pid();
    for (int j = s; j < N; j += p)
        for (int i = 0; i < N; i++)
            columns[j / p][i] = element(i, j);
    bsp_push_reg(&step.pivot, sizeof step.pivot);
    bsp_push_reg(step.multipliers, sizeof step.multipliers);
    bsp_sync();

    for (int k = 0; k < N; k++) {
        if (k % p == s) {
            double *column = columns[k / p];
            int pivot = k;
            for (int i = k + 1; i < N; i++)
                if (size_of(column[i]) > size_of(column[pivot]))
                    pivot = i;
            if (column[pivot] == 0.0)
                bsp_abort("column %d has no pivot\n", k);
            step.pivot = pivot;
            for (int i = k + 1; i < N; i++)
                step.multipliers[i] = column[i == pivot ? k : i] / column[pivot];
            for (int t = 0; t < p; t++)
                if (t != s) {
                    bsp_put(t, &step.pivot, &step.pivot, 0, sizeof step.pivot);
                    bsp_put(t, &step.multipliers[k + 1], step.multipliers, (k + 1) * (int)sizeof(double),
                            (N - k - 1) * (int)sizeof(double));
                }
            printf("column %d, rank %d: pivot %ld/1000 of row %d\n", k, s, thousandths(column[pivot]), pivot);
        }
        bsp_sync();
        for (int j = s; j < N; j += p) {
            double *column = columns[j / p];
            double top = column[step.pivot];
            column[step.pivot] = column[k];
            column[k] = top;
            for (int i = k + 1; i < N; i++)
                if (j == k)
                    column[i] = step.multipliers[i];
                else if (j > k)
                    column[i] -= step.multipliers[i] * top;
        }
    }
    bsp_end();
    return 0;
}
