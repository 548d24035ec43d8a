/* The longest common subsequence of two texts, in a wavefront of blocks of columns. */
#include <bsp.h>
#include <stdio.h>
#include <string.h>

static const char a[] = "bulk synchronous parallel", b[] = "a bridging model for parallel computation";

int main(void)
{
    static int table[64][64];
    int column[64], p, s, m = (int)strlen(a), n = (int)strlen(b), width, first, last, i, j, step;
    bsp_begin(bsp_nprocs());
    p = bsp_nprocs();
    s = bsp_pid();
    width = (n + p - 1) / p;
    first = s * width + 1;
    last = first + width - 1 < n ? first + width - 1 : n;
    memset(column, 0, sizeof column);
    bsp_push_reg(column, sizeof column);
    bsp_sync();
    for (step = 0; step < m + p - 1; step++) {
        i = step - s + 1;
        if (i >= 1 && i <= m) {
            if (s > 0)
                table[i][first - 1] = column[i];
            for (j = first; j <= last; j++)
                table[i][j] = a[i - 1] == b[j - 1] ? table[i - 1][j - 1] + 1
                    : table[i - 1][j] > table[i][j - 1] ? table[i - 1][j] : table[i][j - 1];
            if (s + 1 < p)
                bsp_put(s + 1, &table[i][last], column, i * (int)sizeof(int), sizeof(int));
        }
        bsp_sync();
        if (s > 0)
            for (j = 1; j <= m; j++)
                table[j][first - 1] = column[j];
    }
    if (s == p - 1)
        printf("%d of %d and %d letters\n", table[m][n], m, n);
    bsp_end();
    return 0;
}
