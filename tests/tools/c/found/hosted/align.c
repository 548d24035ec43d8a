/* Smith and Waterman's alignment in a pipeline of blocks of columns, with the way back on process 0. */
#include <bsp.h>
#include <stdio.h>
#include <stdlib.h>
#include <string.h>

#define MAX3(a, b, c) ((a) > (b) ? ((a) > (c) ? (a) : (c)) : ((b) > (c) ? (b) : (c)))
#define MATCH 3
#define MISS -3
#define GAP -2

static const char a[] = "TGTTACGGTACCGATTACAGGT", b[] = "GGTTGACTAGATTACATTGCCAACGT";
static int H[sizeof a][sizeof b], edge[sizeof a];

int main(void)
{
    const int n = strlen(a), m = strlen(b);
    bsp_begin(bsp_nprocs());
    const int p = bsp_nprocs(), s = bsp_pid(), from = s * m / p + 1, to = (s + 1) * m / p, strip = 4, strips = (n + strip - 1) / strip;
    bsp_push_reg(edge, sizeof edge);
    bsp_push_reg(H, sizeof H);
    bsp_sync();
    for (int step = 0; step < strips + p - 1; step++) {
        int k = step - s;
        if (0 <= k && k < strips) {
            for (int i = k * strip + 1; i <= n && i <= (k + 1) * strip; i++) {
                if (s > 0)
                    H[i][from - 1] = edge[i];
                for (int j = from; j <= to; j++) {
                    int up = H[i - 1][j] + GAP, left = H[i][j - 1] + GAP, both = H[i - 1][j - 1] + (a[i - 1] == b[j - 1] ? MATCH : MISS);
                    H[i][j] = MAX3(up, left, both) > 0 ? MAX3(up, left, both) : 0;
                }
                if (s < p - 1)
                    bsp_put(s + 1, &H[i][to], edge, i * sizeof(int), sizeof(int));
            }
        }
        bsp_sync();
    }
    for (int i = 1; i <= n; i++)
        bsp_put(0, &H[i][from], H, (int)((char *)&H[i][from] - (char *)H), (to - from + 1) * sizeof(int));
    bsp_sync();
    if (s == 0) {
        int i = 0, j = 0;
        for (int y = 1; y <= n; y++)
            for (int x = 1; x <= m; x++)
                if (H[y][x] > H[i][j])
                    i = y, j = x;
        char *top = calloc(1, n + m), *low = calloc(1, n + m), *ta = top + n + m - 1, *tb = low + n + m - 1;
        printf("score %d at %d, %d\n", H[i][j], i, j);
        while (H[i][j] > 0) {
            if (H[i][j] == H[i - 1][j - 1] + (a[i - 1] == b[j - 1] ? MATCH : MISS))
                *--ta = a[--i], *--tb = b[--j];
            else if (H[i][j] == H[i - 1][j] + GAP)
                *--ta = a[--i], *--tb = '-';
            else
                *--ta = '-', *--tb = b[--j];
        }
        printf("%s\n%s\n", ta, tb);
        free(top);
        free(low);
    }
    bsp_end();
    return EXIT_SUCCESS;
}
