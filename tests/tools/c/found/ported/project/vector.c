#include "vector.h"

#include <assert.h>
#include <math.h>
#include <stdlib.h>

#include <bsp.h>

vector *vector_new(int n)
{
    vector *v = malloc(sizeof *v);
    assert(v);
    v->n = n;
    v->first = n * bsp_pid() / bsp_nprocs();
    v->count = n * (bsp_pid() + 1) / bsp_nprocs() - v->first;
    v->part = malloc((v->count + 1) * sizeof *v->part);
    return v;
}

void vector_free(vector *v)
{
    free(v->part);
    free(v);
}

double vector_norm(const vector *v)
{
    double sum = 0.0, *sums = calloc(bsp_nprocs(), sizeof *sums);
    int i;
    bsp_push_reg(sums, bsp_nprocs() * sizeof *sums);
    bsp_sync();
    for (i = 0; i < v->count; i++)
        sum += v->part[i] * v->part[i];
    for (i = 0; i < bsp_nprocs(); i++)
        bsp_put(i, &sum, sums, bsp_pid() * sizeof sum, sizeof sum);
    bsp_sync();
    bsp_pop_reg(sums);
    for (sum = 0.0, i = 0; i < bsp_nprocs(); i++)
        sum += sums[i];
    free(sums);
    return sqrt(sum);
}
