#include "bv/bv.h"
#include "bsp.h"
#include <stdlib.h>
double comm_sum(double x)
{
    int p = bsp_nprocs();
    double *all = malloc(p * sizeof(double)), s = 0;
    bsp_push_reg(all, p * sizeof(double));
    bsp_sync();
    for (int i = 0; i < p; i++)
        bsp_put(i, &x, all, bsp_pid() * sizeof(double), sizeof(double));
    bsp_pop_reg(all);
    bsp_sync();
    for (int i = 0; i < p; i++)
        s += all[i];
    free(all);
    return s;
}
void comm_shift(const bv_vec *v, int by, bv_vec *out)
{
    int p = bsp_nprocs();
    bsp_push_reg(out->data, (out->nloc + 1) * sizeof(double));
    bsp_sync();
    for (size_t i = 0; i < v->nloc; i++) {
        size_t g = (bv_global(i) + by) % v->n;
        bsp_put(g % p, &v->data[i], out->data, g / p * sizeof(double), sizeof(double));
    }
    bsp_pop_reg(out->data);
    bsp_sync();
}
