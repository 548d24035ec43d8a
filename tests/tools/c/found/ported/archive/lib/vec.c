#include "bv/bv.h"
#include <bsp.h>
#include <stdlib.h>
#include <assert.h>
bv_vec *bv_new(size_t n)
{
    bv_vec *v = malloc(sizeof *v);
    assert(v);
    v->n = n;
    v->nloc = (n + bsp_nprocs() - bsp_pid() - 1) / bsp_nprocs();
    v->data = calloc(v->nloc + 1, sizeof(double));
    return v;
}
void bv_free(bv_vec *v)
{
    free(v->data);
    free(v);
}
size_t bv_global(size_t i)
{
    return i * bsp_nprocs() + bsp_pid();
}
double bv_dot(const bv_vec *a, const bv_vec *b)
{
    double s = 0;
    for (size_t i = 0; i < a->nloc; i++)
        s += a->data[i] * b->data[i];
    return comm_sum(s);
}
void bv_axpy(double alpha, const bv_vec *x, bv_vec *y)
{
    for (size_t i = 0; i < x->nloc; i++)
        y->data[i] += alpha * x->data[i];
}
