/* How many ways there are to place queens, the first column parted over the ranks. */
#include <bsp.h>
#include <stdio.h>
#include <stdlib.h>

static int solve(int n, int row, unsigned columns, unsigned up, unsigned down)
{
    int c, count = 0;
    if (row == n)
        return 1;
    for (c = 0; c < n; c++) {
        unsigned bit = 1u << c, u = 1u << (row + c), d = 1u << (row - c + n);
        if (!(columns & bit) && !(up & u) && !(down & d))
            count += solve(n, row + 1, columns | bit, up | u, down | d);
    }
    return count;
}

int main(int argc, char *argv[])
{
    int n = argc > 1 ? atoi(argv[1]) : 6, c, mine = 0, all[64], total = 0;
    bsp_begin(bsp_nprocs());
    bsp_push_reg(all, sizeof all);
    bsp_sync();
    for (c = bsp_pid(); c < n; c += bsp_nprocs())
        mine += solve(n, 1, 1u << c, 1u << c, 1u << (n - c));
    bsp_put(0, &mine, all, bsp_pid() * (int)sizeof(int), sizeof(int));
    bsp_sync();
    if (bsp_pid() == 0) {
        for (c = 0; c < bsp_nprocs(); c++)
            total += all[c];
        printf("%d queens: %d\n", n, total);
    }
    bsp_end();
    return 0;
}
