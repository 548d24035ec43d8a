/* A knapsack by dynamic programming, in which capacities are parted over the ranks. */
#include <bsp.h>
#include <stdio.h>
#include <stdlib.h>
#include <string.h>

enum { ITEMS = 12, ROOM = 60 };

int main(void)
{
    int weight[ITEMS], value[ITEMS], best[ROOM + 1], next[ROOM + 1], i, c, t, first, last, part;
    bsp_begin(bsp_nprocs());
    for (i = 0; i < ITEMS; i++)
        weight[i] = 3 + (i * 5) % 11, value[i] = 10 + (i * 7) % 23;
    memset(best, 0, sizeof best);
    bsp_push_reg(best, sizeof best);
    bsp_sync();
    part = (ROOM + bsp_nprocs()) / bsp_nprocs();
    first = bsp_pid() * part;
    last = first + part > ROOM + 1 ? ROOM + 1 : first + part;
    for (i = 0; i < ITEMS; i++) {
        for (c = first; c < last; c++) {
            int with = c >= weight[i] ? best[c - weight[i]] + value[i] : 0;
            next[c] = with > best[c] ? with : best[c];
        }
        for (t = 0; t < bsp_nprocs() && last > first; t++)
            bsp_put(t, next + first, best, first * (int)sizeof(int), (last - first) * (int)sizeof(int));
        bsp_sync();
    }
    if (bsp_pid() == 0)
        printf("the best of %d is %d\n", ROOM, best[ROOM]);
    bsp_end();
    return 0;
}
