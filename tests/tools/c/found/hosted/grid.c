/* A product of matrices on a grid of processes in C99: arrays of variable length, restrict, inline and compound literals. */
#include <bsp.h>
#include <complex.h>
#include <stdio.h>
#include <stdlib.h>
#include <tgmath.h>

typedef struct { int row, col; } cell;

static inline cell place(int s, int q) { return (cell){.row = s / q, .col = s % q}; }
static inline int at(cell c, int q) { return c.row * q + c.col; }

static void multiply(int n, double complex C[restrict n][n], const double complex A[restrict n][n], const double complex B[restrict n][n])
{
    for (int i = 0; i < n; i++)
        for (int j = 0; j < n; j++)
            for (int k = 0; k < n; k++)
                C[i][j] += A[i][k] * B[k][j];
}

int main(int argc, char *argv[static 1])
{
    bsp_begin(bsp_nprocs());
    const int p = bsp_nprocs(), q = (int)sqrt(p + 0.5), n = argc > 1 ? atoi(argv[1]) : 3, s = bsp_pid();
    const cell me = place(s, q);
    double complex(*A)[n] = malloc(sizeof(double complex[n][n])), (*B)[n] = malloc(sizeof(double complex[n][n]));
    double complex(*left)[n] = malloc(sizeof *A * n), (*below)[n] = malloc(sizeof *B * n), (*C)[n] = calloc(n, sizeof *C);
    for (int i = 0; i < n; i++)
        for (int j = 0; j < n; j++) {
            A[i][j] = (me.row * n + i) + I * (me.col * n + j);
            B[i][j] = conj(A[i][j]) / 2;
        }
    bsp_push_reg(A, n * n * sizeof(double complex));
    bsp_push_reg(B, n * n * sizeof(double complex));
    bsp_sync();
    for (int step = 0; step < q; step++) {
        int k = (me.row + me.col + step) % q;
        bsp_get(at((cell){me.row, k}, q), A, 0, left, n * n * sizeof **A);
        bsp_get(at((cell){k, me.col}, q), B, 0, below, n * n * sizeof **B);
        bsp_sync();
        multiply(n, C, (const double complex(*)[n])left, (const double complex(*)[n])below);
    }
    printf("(%d,%d): %.1f%+.1fi, |.| = %.4f, arg %.4f\n", me.row, me.col, creal(C[n - 1][0]), cimag(C[n - 1][0]), fabs(C[0][n - 1]), carg(C[1][1]));
    free(A), free(B), free(C), free(left), free(below);
    bsp_end();
}
