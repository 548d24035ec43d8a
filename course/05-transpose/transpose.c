/* Sheet 5: a matrix that lies over the ranks by rows is transposed, which is a total exchange. The exchange is yours. */
#include <bsp.h>
#include <stdio.h>

#ifndef N
#define N 24
#endif
#ifndef SEED
#define SEED 1
#endif

/* Rank s has rows s N/p to (s + 1) N/p, one behind another. p divides N. */
static int rows[N * N], packed[N * N], came[N * N];

/* Replaces the rows by those of the transposed matrix. came is registered. Each rank puts one block to each rank, and not number by number. */
static void transpose(int p, int s)
{
    (void)p, (void)s, (void)packed; /* yours */
}

int main(void)
{
    int p, s;

    bsp_begin(bsp_nprocs());
    p = bsp_nprocs();
    s = bsp_pid();
    for (int i = 0; i < N / p; i++)
        for (int j = 0; j < N; j++)
            rows[i * N + j] = (s * (N / p) + i) * 100 + j + SEED;
    bsp_push_reg(came, sizeof came);
    bsp_sync();

    transpose(p, s);

    for (int i = 0; i < N / p; i++) {
        unsigned sum = 0;
        for (int j = 0; j < N; j++)
            sum += (unsigned)(j + 1) * (unsigned)rows[i * N + j];
        printf("row %d: %d .. %d, weighted %u\n", s * (N / p) + i, rows[i * N], rows[i * N + N - 1], sum);
    }
    bsp_end();
    return 0;
}
