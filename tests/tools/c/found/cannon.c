/* Cannon's product of two matrices, on the largest square grid of processes that there is. */
#include <bsp.h>
#include <stdio.h>
#include <stdlib.h>

#define N 8

int main(int argc, char **argv)
{
    bsp_begin(bsp_nprocs());
    int p = bsp_nprocs(), s = bsp_pid(), q = 1, i, j, k, step;
    while ((q + 1) * (q + 1) <= p && N % (q + 1) == 0)
        q++;
    int b = N / q, row = s / q, column = s % q, first = (row + column) % q;
    size_t size = b * b * sizeof(double);
    double *A = malloc(size), *B = malloc(size), *C = calloc(b * b, sizeof(double)), *all = calloc(N * N, sizeof(double));
    /* Blocks are skewed as they are made. */
    for (i = 0; i < b; i++)
        for (j = 0; j < b; j++) {
            A[i * b + j] = (row * b + i) + (first * b + j);
            B[i * b + j] = (first * b + i) - (column * b + j);
        }
    bsp_push_reg(A, size);
    bsp_push_reg(B, size);
    bsp_push_reg(all, N * N * sizeof(double));
    bsp_sync();
    for (step = 0; step < q; step++) {
        if (s < q * q) {
            for (i = 0; i < b; i++)
                for (j = 0; j < b; j++)
                    for (k = 0; k < b; k++)
                        C[i * b + j] += A[i * b + k] * B[k * b + j];
            bsp_put(row * q + (column + q - 1) % q, A, A, 0, size);
            bsp_put((row + q - 1) % q * q + column, B, B, 0, size);
        }
        bsp_sync();
    }
    if (s < q * q)
        for (i = 0; i < b; i++)
            bsp_put(0, C + i * b, all, ((row * b + i) * N + column * b) * sizeof(double), b * sizeof(double));
    bsp_sync();
    if (s == 0)
        for (i = 0; i < N; i++) {
            for (j = 0; j < N; j++)
                printf("%g%c", all[i * N + j], j < N - 1 ? ' ' : '\n');
        }
    bsp_end();
    return 0;
}
