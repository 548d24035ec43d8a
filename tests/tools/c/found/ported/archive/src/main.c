#include <bsp.h>
#include <stdio.h>
#include <math.h>
#include "bv/bv.h"
static int ac;
static char **av;
static void spmd(void)
{
    bsp_begin(bsp_nprocs());
    parse(ac, av);
    bv_vec *v = bv_new(opts.n), *w = bv_new(opts.n);
    for (size_t i = 0; i < v->nloc; i++)
        v->data[i] = 1.0 + bv_global(i) % 4;
    for (int k = 0; k < opts.iters; k++) {
        comm_shift(v, 1, w);
        bv_axpy(0.5, w, v);
        double nrm = sqrt(bv_dot(v, v));
        if (bsp_pid() == 0)
            printf("%s %d: %.9f\n", opts.title, k, nrm);
        for (size_t i = 0; i < v->nloc; i++)
            v->data[i] /= nrm;
    }
    bv_free(v);
    bv_free(w);
    bsp_end();
}
int main(int argc, char **argv)
{
    ac = argc;
    av = argv;
    bsp_init(spmd, argc, argv);
    spmd();
    return 0;
}
