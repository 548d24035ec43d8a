/* An inner product in the style of a package for teaching: n is typed at rank 0, and all have it by bsp_get. */
#include <stdio.h>
#include <stdlib.h>
#include "bsp.h"

int P;

double *vecallocd(int n)
{
    double *pd = n == 0 ? NULL : (double *)malloc(n * sizeof(double));
    if (n > 0 && pd == NULL)
        bsp_abort("vecallocd: not enough memory");
    return pd;
}

int nloc(int p, int s, int n) { return (n + p - s - 1) / p; }

double bspip(int p, int s, int n, double *x, double *y)
{
    double inprod = 0.0, alpha = 0.0, *Inprod = vecallocd(p);
    int i, t;
    bsp_push_reg(Inprod, p * sizeof(double));
    bsp_sync();
    for (i = 0; i < nloc(p, s, n); i++)
        inprod += x[i] * y[i];
    for (t = 0; t < p; t++)
        bsp_put(t, &inprod, Inprod, s * sizeof(double), sizeof(double));
    bsp_sync();
    for (t = 0; t < p; t++)
        alpha += Inprod[t];
    bsp_pop_reg(Inprod);
    free(Inprod);
    return alpha;
}

void bspinprod(void)
{
    int p, s, n, nl, i;
    double *x, alpha;
    bsp_begin(P);
    p = bsp_nprocs();
    s = bsp_pid();
    if (s == 0) {
        printf("Please enter n:\n");
        if (scanf("%d", &n) != 1 || n < 0)
            bsp_abort("Error in input: n is negative");
    }
    bsp_push_reg(&n, sizeof(int));
    bsp_sync();
    bsp_get(0, &n, 0, &n, sizeof(int));
    bsp_sync();
    bsp_pop_reg(&n);
    nl = nloc(p, s, n);
    x = vecallocd(nl);
    for (i = 0; i < nl; i++)
        x[i] = i * p + s + 1;
    alpha = bspip(p, s, n, x, x);
    printf("Processor %d: sum of squares up to %d*%d is %.0f\n", s, n, n, alpha);
    free(x);
    bsp_end();
}

int main(int argc, char **argv)
{
    bsp_init(bspinprod, argc, argv);
    P = bsp_nprocs();
    bspinprod();
    exit(EXIT_SUCCESS);
}
