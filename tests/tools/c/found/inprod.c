/* An inner product in cyclic distribution, with the number of processors and the length from standard input. */
#include <bsp.h>
#include <stdio.h>
#include <stdlib.h>

int P; /* number of processors requested */

int nloc(int p, int s, int n)
{
    return (n + p - s - 1) / p;
}

double bspip(int p, int s, int n, double *x, double *y)
{
    double inprod = 0.0, alpha = 0.0, *Inprod = calloc(p, sizeof(double));
    int i, t;
    bsp_push_reg(Inprod, p * sizeof(double));
    bsp_sync();
    for (i = 0; i < nloc(p, s, n); i++)
        inprod += x[i] * y[i];
    for (t = 0; t < p; t++)
        bsp_put(t, &inprod, Inprod, s * sizeof(double), sizeof(double));
    bsp_sync();
    for (t = 0; t < p; t++)
        alpha += Inprod[t];
    bsp_pop_reg(Inprod);
    free(Inprod);
    return alpha;
}

void bspinprod()
{
    double *x, alpha, time0, time1;
    int p, s, n, i;
    bsp_begin(P);
    p = bsp_nprocs();
    s = bsp_pid();
    if (s == 0) {
        printf("Please enter n:\n");
        fflush(stdout);
        scanf("%d", &n);
        if (n < 0)
            bsp_abort("Error in input: n is negative");
    }
    bsp_push_reg(&n, sizeof(int));
    bsp_sync();
    bsp_get(0, &n, 0, &n, sizeof(int));
    bsp_sync();
    bsp_pop_reg(&n);
    x = malloc(nloc(p, s, n) * sizeof(double) + 1);
    for (i = 0; i < nloc(p, s, n); i++)
        x[i] = i * p + s + 1;
    bsp_sync();
    time0 = bsp_time();
    alpha = bspip(p, s, n, x, x);
    bsp_sync();
    time1 = bsp_time();
    if (s == 0) {
        printf("Sum of squares up to %d*%d is %.0lf\n", n, n, alpha);
        printf("This took only %.6lf seconds.\n", time1 - time0);
    }
    free(x);
    bsp_end();
}

int main(int argc, char **argv)
{
    bsp_init(bspinprod, argc, argv);
    printf("How many processors do you want to use?\n");
    fflush(stdout);
    scanf("%d", &P);
    if (P > bsp_nprocs()) {
        printf("Sorry, not enough processors available.\n");
        exit(1);
    }
    bspinprod();
    exit(0);
}
