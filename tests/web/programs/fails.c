/* A put to a rank that there is not, or beyond the end of an area. */
#include <bsp.h>

int table[4];

int main(void)
{
    bsp_begin(bsp_nprocs());
    int s = bsp_pid(), value = 7 + s;
    bsp_push_reg(table, sizeof table);
    bsp_sync();
    bsp_put(0, &value, table, 0, sizeof value);
    if (s == 2)
        bsp_put(TO, &value, table, OFFSET, sizeof value);
    bsp_sync();
    bsp_end();
    return 0;
}
