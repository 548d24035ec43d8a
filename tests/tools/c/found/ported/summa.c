/* SUMMA: a product of matrices on a grid of processes, which are variable arrays on the stack and registered there. */
#include <bsp.h>
#include <stdio.h>
#include <stdlib.h>
#include <string.h>

static int part(int n, int k, int i)
{
    return (int)((long long)n * i / k);
}
static int owner(int n, int k, int x)
{
    int i = 0;
    while (part(n, k, i + 1) <= x)
        i++;
    return i;
}

int main()
{
    bsp_begin(bsp_nprocs());
    const int p = bsp_nprocs(), me = bsp_pid(), n = 19;
    int R = 1;
    for (int i = 1; i * i <= p; i++)
        if (p % i == 0)
            R = i;
    const int C = p / R, r = me / C, c = me % C;
    const int i0 = part(n, R, r), i1 = part(n, R, r + 1), j0 = part(n, C, c), j1 = part(n, C, c + 1), h = i1 - i0, w = j1 - j0;
    float a[h > 0 ? h : 1][w > 0 ? w : 1], b[h > 0 ? h : 1][w > 0 ? w : 1], s[h > 0 ? h : 1][w > 0 ? w : 1];
    float colbuf[n], rowbuf[n], result[n][n];
    memset(s, 0, sizeof s);
    memset(result, 0, sizeof result);
    for (int i = 0; i < h; i++)
        for (int j = 0; j < w; j++) {
            a[i][j] = (float)((i0 + i + 1) * (j0 + j + 2) % 9);
            b[i][j] = (float)((i0 + i) - 2 * (j0 + j)) / 2;
        }
    bsp_push_reg(colbuf, sizeof colbuf);
    bsp_push_reg(rowbuf, sizeof rowbuf);
    bsp_push_reg(result, sizeof result);
    bsp_sync();
    for (int k = 0; k < n; k++) {
        if (owner(n, C, k) == c)
            for (int i = 0; i < h; i++)
                for (int q = 0; q < C; q++)
                    bsp_put(r * C + q, &a[i][k - j0], colbuf, (i0 + i) * sizeof(float), sizeof(float));
        if (owner(n, R, k) == r)
            for (int q = 0; q < R; q++)
                bsp_put(q * C + c, b[k - i0], rowbuf, j0 * sizeof(float), w * sizeof(float));
        bsp_sync();
        for (int i = 0; i < h; i++)
            for (int j = 0; j < w; j++)
                s[i][j] += colbuf[i0 + i] * rowbuf[j0 + j];
        bsp_sync();
    }
    for (int i = 0; i < h; i++)
        bsp_put(p - 1, s[i], result, ((i0 + i) * n + j0) * sizeof(float), w * sizeof(float));
    bsp_sync();
    if (me == p - 1)
        for (int i = 0; i < n; i += 6) {
            for (int j = 0; j < n; j += 3)
                printf("%8.1f", result[i][j]);
            puts("");
        }
    bsp_end();
    return 0;
}
