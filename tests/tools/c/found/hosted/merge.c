/* Merge sort up a tree: half of the ranks send what they have in each step. */
#include <bsp.h>
#include <stdio.h>
#include <stdlib.h>

#define MOST 64

static int merge(const int *a, int m, const int *b, int n, int *to)
{
    int i = 0, j = 0, k = 0;
    while (i < m || j < n)
        to[k++] = j == n || (i < m && a[i] <= b[j]) ? a[i++] : b[j++];
    return k;
}

static int compare(const void *a, const void *b) { return *(const int *)a - *(const int *)b; }

int main(void)
{
    int mine[MOST], other[MOST], both[MOST], count = 6, i, step, got, bytes, status;
    bsp_begin(bsp_nprocs());
    for (i = 0; i < count; i++)
        mine[i] = (bsp_pid() * 37 + i * 53) % 100;
    qsort(mine, (size_t)count, sizeof *mine, compare);
    for (step = 1; step < bsp_nprocs(); step *= 2) {
        if (bsp_pid() % (2 * step) == step)
            bsp_send(bsp_pid() - step, NULL, mine, count * (int)sizeof *mine);
        bsp_sync();
        bsp_qsize(&got, &bytes);
        if (got > 0) {
            bsp_get_tag(&status, NULL);
            bsp_move(other, status);
            count = merge(mine, count, other, status / (int)sizeof *other, both);
            for (i = 0; i < count; i++)
                mine[i] = both[i];
        }
    }
    if (bsp_pid() == 0)
        for (i = 0; i < count; i++)
            printf("%d%c", mine[i], i + 1 < count ? ',' : '\n');
    bsp_end();
    return 0;
}
