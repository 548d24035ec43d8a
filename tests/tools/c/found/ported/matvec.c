/* y = A x by blocks of rows. Usage: matvec MATRIX RESULT, where MATRIX begins with n. */
#include <stdio.h>
#include <stdlib.h>
#include "bsp.h"

#define MIN(a, b) ((a) < (b) ? (a) : (b))

int main(int argc, char *argv[])
{
    int p, s, n, rows, first, i, j;
    double *A, *x, *y;
    FILE *fp;

    bsp_begin(bsp_nprocs());
    p = bsp_nprocs();
    s = bsp_pid();
    if (argc < 3) {
        if (s == 0)
            fprintf(stderr, "Usage: %s matrix result\n", argv[0]);
        exit(EXIT_FAILURE);
    }
    if ((fp = fopen(argv[1], "r")) == NULL) {
        perror(argv[1]);
        exit(EXIT_FAILURE);
    }
    if (fscanf(fp, "%d", &n) != 1)
        bsp_abort("no size in %s\n", argv[1]);
    rows = (n + p - 1) / p;
    first = MIN(s * rows, n);
    A = malloc((size_t)(rows * n + 1) * sizeof(double));
    x = malloc(n * sizeof(double));
    y = calloc(rows * p, sizeof(double));
    for (i = 0; i < n; i++)
        for (j = 0; j < n; j++) {
            double v;
            if (fscanf(fp, "%lf", &v) != 1)
                bsp_abort("matrix is short\n");
            if (i >= first && i < first + rows)
                A[(i - first) * n + j] = v;
        }
    fclose(fp);
    for (j = 0; j < n; j++)
        x[j] = 1.0 / (j + 1);
    bsp_push_reg(y, rows * p * (int)sizeof(double));
    bsp_sync();
    for (i = 0; i < rows && first + i < n; i++) {
        double sum = 0.0;
        for (j = 0; j < n; j++)
            sum += A[i * n + j] * x[j];
        bsp_put(0, &sum, y, (first + i) * (int)sizeof(double), sizeof(double));
    }
    bsp_sync();
    bsp_pop_reg(y);
    if (s == 0) {
        fp = fopen(argv[2], "w");
        if (!fp) {
            perror(argv[2]);
            exit(1);
        }
        for (i = 0; i < n; i++)
            fprintf(fp, "%.15g\n", y[i]);
        fclose(fp);
        printf("wrote %d values to %s\n", n, argv[2]);
    }
    free(A);
    free(x);
    free(y);
    bsp_end();
    return EXIT_SUCCESS;
}
