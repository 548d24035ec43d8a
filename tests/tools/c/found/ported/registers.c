#include <bsp.h>
#include <stdio.h>
#include <stdlib.h>
/* Registrations: an address once more with another size, taken back in another order, and with no bytes in all ranks but one. */
int main(int argc, char *argv[])
{
    int p, s, i, *table, one = 7, got[2] = {-1, -1};
    bsp_begin(bsp_nprocs());
    p = bsp_nprocs();
    s = bsp_pid();
    table = malloc(p * sizeof(int));
    for (i = 0; i < p; i++)
        table[i] = -s;
    bsp_push_reg(table, sizeof(int));
    bsp_push_reg(&one, sizeof(int));
    bsp_sync();
    bsp_put((s + 1) % p, &s, table, 0, sizeof(int));
    bsp_push_reg(table, p * sizeof(int));
    bsp_sync();
    bsp_put((s + 1) % p, &s, table, (p - 1) * sizeof(int), sizeof(int));
    bsp_pop_reg(table); /* in effect after the put */
    bsp_sync();
    bsp_get((s + p - 1) % p, table, 0, &got[0], sizeof(int));
    bsp_get((s + p - 1) % p, &one, 0, &got[1], sizeof(int));
    bsp_pop_reg(&one);
    bsp_pop_reg(table);
    bsp_sync();
    if (s == 0)
        bsp_push_reg(table, p * sizeof(int));
    else
        bsp_push_reg(table, 0);
    bsp_sync();
    one = s * s;
    bsp_put(0, &one, table, s * sizeof(int), sizeof(int));
    bsp_sync();
    if (got[0] != (p == 1 ? 0 : (s + p - 2) % p) || got[1] != 7)
        bsp_abort("%d got %d and %d\n", s, got[0], got[1]);
    for (i = 0; i < p && s == 0; i++)
        if (table[i] != i * i)
            bsp_abort("place %d has %d\n", i, table[i]);
    if (s == 0)
        printf("registrations are right\n");
    bsp_end();
    return 0;
}
