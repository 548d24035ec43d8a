/* LU decomposition with pivots, rows in turns. */
#include <bsp.h>
#include <math.h>
#include <stdio.h>

#define N 7

int main(void)
{
    double a[N][N], row[N], best[32];
    int which[32], used[N] = {0}, order[N], p, s, i, j, k, t;
    bsp_begin(bsp_nprocs());
    p = bsp_nprocs();
    s = bsp_pid();
    for (i = 0; i < N; i++)
        for (j = 0; j < N; j++)
            a[i][j] = 1.0 / (1 + (i * 3 + j * 5) % 11) + (i == j);
    bsp_push_reg(row, sizeof row);
    bsp_push_reg(best, sizeof best);
    bsp_push_reg(which, sizeof which);
    bsp_sync();
    for (k = 0; k < N; k++) {
        double most = -1;
        int pivot = -1;
        for (i = s; i < N; i += p)
            if (!used[i] && fabs(a[i][k]) > most)
                most = fabs(a[i][k]), pivot = i;
        for (t = 0; t < p; t++) {
            bsp_put(t, &most, best, s * (int)sizeof most, sizeof most);
            bsp_put(t, &pivot, which, s * (int)sizeof pivot, sizeof pivot);
        }
        bsp_sync();
        for (t = 0, j = 0; j < p; j++)
            if (best[j] > best[t])
                t = j;
        pivot = which[t];
        order[k] = pivot;
        used[pivot] = 1;
        if (t == s)
            for (j = 0; j < p; j++)
                bsp_put(j, a[pivot], row, 0, sizeof row);
        bsp_sync();
        for (i = s; i < N; i += p)
            if (!used[i]) {
                a[i][k] /= row[k];
                for (j = k + 1; j < N; j++)
                    a[i][j] -= a[i][k] * row[j];
            }
    }
    if (s == 0) {
        for (i = 0; i < N; i++)
            printf("%d ", order[i]);
        printf("\n");
    }
    for (i = s; i < N; i += p)
        printf("%d: %.4f %.4f\n", i, a[i][0], a[i][N - 1]);
    bsp_end();
    return 0;
}
