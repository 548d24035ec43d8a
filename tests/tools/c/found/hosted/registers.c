/* Areas that are registered anew and taken back, of one address and several sizes. */
#include <bsp.h>
#include <stdio.h>

int main(void)
{
    int area[8] = {0}, one = 1, i;
    bsp_begin(bsp_nprocs());
    bsp_push_reg(area, 4 * sizeof(int));
    bsp_sync();
    bsp_put(0, &one, area, 3 * sizeof(int), sizeof one);
    bsp_push_reg(area, sizeof area);
    bsp_sync();
    one = 2;
    bsp_put(bsp_nprocs() - 1, &one, area, 7 * sizeof(int), sizeof one);
    bsp_sync();
    bsp_pop_reg(area);
    bsp_sync();
    one = 3;
    bsp_put((bsp_pid() + 1) % bsp_nprocs(), &one, area, 2 * sizeof(int), sizeof one);
    bsp_sync();
    bsp_pop_reg(area);
    bsp_sync();
    for (i = 0; i < 8; i++)
        printf("%d", area[i]);
    printf(" at %d\n", bsp_pid());
    bsp_end();
    return 0;
}
