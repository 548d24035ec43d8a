/* All shortest paths of a graph, by rows. */
#include <bsp.h>
#include <limits.h>
#include <stdio.h>
#include <stdlib.h>

#define N 12
#define FAR (INT_MAX / 2)

int main(void)
{
    int d[N][N], row[N], p, s, i, j, k;
    bsp_begin(bsp_nprocs());
    p = bsp_nprocs();
    s = bsp_pid();
    for (i = 0; i < N; i++)
        for (j = 0; j < N; j++)
            d[i][j] = i == j ? 0 : (i * 7 + j * 3) % 5 == 0 ? 1 + (i + 2 * j) % 9 : FAR;
    bsp_push_reg(row, sizeof row);
    bsp_sync();
    for (k = 0; k < N; k++) {
        int t;
        if (k % p == s)
            for (t = 0; t < p; t++)
                bsp_put(t, d[k], row, 0, sizeof row);
        bsp_sync();
        for (i = s; i < N; i += p)
            for (j = 0; j < N; j++)
                if (d[i][k] + row[j] < d[i][j])
                    d[i][j] = d[i][k] + row[j];
    }
    for (i = s; i < N; i += p) {
        printf("%2d:", i);
        for (j = 0; j < N; j++)
            d[i][j] < FAR ? printf(" %3d", d[i][j]) : printf("   -");
        putchar('\n');
    }
    bsp_end();
    return EXIT_SUCCESS;
}
