#include <stdio.h>
#include <stdlib.h>

#include <bsp.h>

#include "vector.h"

int main(int argc, char *argv[])
{
    int n = argc > 1 ? atoi(argv[1]) : 100, i;
    double start, norm;
    vector *v;
    bsp_begin(bsp_nprocs());
    v = vector_new(n);
    for (i = 0; i < v->count; i++)
        v->part[i] = (float)(v->first + i);
#pragma omp parallel for
    for (i = 0; i < v->count; i++)
        v->part[i] *= 0.5f;
    start = bsp_time();
    norm = vector_norm(v);
    if (bsp_pid() == 0)
        printf("n = %d, norm = %.6f, %.1f s\n", n, norm, bsp_time() - start);
    vector_free(v);
    bsp_end();
    return 0;
}
