/* The inner product of two vectors in blocks: each rank adds up its own products, and puts its sum to every rank. */
#include <bsp.h>
#include <stdio.h>
#include <stdlib.h>

#define N 1000

static double product(void)
{
    int p = bsp_nprocs(), s = bsp_pid();
    int first = N * s / p, after = N * (s + 1) / p;
    double sum = 0.0, all = 0.0;
    double *sums = malloc((size_t)p * sizeof(double));

    if (sums == NULL)
        bsp_abort("no memory for %d sums\n", p);
    bsp_push_reg(sums, p * (int)sizeof(double));
    bsp_sync();

    for (int i = first; i < after; i++) {
        double x = i + 1, y = 2 * i - N;
        sum += x * y;
    }
    for (int t = 0; t < p; t++)
        bsp_put(t, &sum, sums, s * (int)sizeof(double), sizeof(double));
    bsp_sync();

    for (int t = 0; t < p; t++)
        all += sums[t];
    bsp_pop_reg(sums);
    free(sums);
    return all;
}

static void spmd(void)
{
    double all;

    bsp_begin(bsp_nprocs());
    all = product();
    printf("rank %d: %ld\n", bsp_pid(), (long)all);
    bsp_end();
}

/* After bsp_init rank 0 alone is here, before and after the parallel part. */
int main(int argc, char **argv)
{
    bsp_init(spmd, argc, argv);
    printf("the inner product of %d elements\n", N);
    spmd();
    printf("done\n");
    return 0;
}
