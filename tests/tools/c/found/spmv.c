/* A sparse matrix times a vector. The file has n and the number of nonzeros, and then a line for each nonzero: i j value. */
#include <bsp.h>
#include <stdio.h>
#include <stdlib.h>

int main(int argc, char **argv)
{
    bsp_begin(bsp_nprocs());
    int p = bsp_nprocs(), s = bsp_pid(), n, nz, k, i, j, status, tagsize = sizeof(int);
    double a, term, *x, *y;
    FILE *fp = fopen(argc > 1 ? argv[1] : "matrix.txt", "r");
    if (fp == NULL)
        bsp_abort("cannot open the matrix\n");
    if (fscanf(fp, "%d %d", &n, &nz) != 2)
        bsp_abort("no matrix\n");
    x = malloc(n * sizeof(double));
    y = calloc(n, sizeof(double));
    for (i = 0; i < n; i++)
        x[i] = i + 1;
    bsp_set_tagsize(&tagsize);
    bsp_sync();
    /* Nonzero k is of process k mod p, and element i of the product of process i mod p. */
    for (k = 0; k < nz; k++) {
        fscanf(fp, "%d %d %lf", &i, &j, &a);
        if (k % p == s) {
            term = a * x[j];
            bsp_send(i % p, &i, &term, sizeof(double));
        }
    }
    fclose(fp);
    bsp_sync();
    for (bsp_get_tag(&status, &i); status != -1; bsp_get_tag(&status, &i)) {
        bsp_move(&term, sizeof(double));
        y[i] += term;
    }
    bsp_push_reg(y, n * sizeof(double));
    bsp_sync();
    for (i = 0; i < n; i++)
        if (i % p == s && s != 0)
            bsp_put(0, &y[i], y, i * sizeof(double), sizeof(double));
    bsp_sync();
    if (s == 0)
        for (i = 0; i < n; i++)
            printf("y[%d] = %g\n", i, y[i]);
    bsp_end();
    return 0;
}
