/* A product of matrices of 64 rows and columns, whole numbers modulo 2^32. Each product is the left factor of the next one. */
#include "rounds.h"

#define N 64

static unsigned left[N][N], right[N][N], product[N][N];

static void multiply(void)
{
    for (int i = 0; i < N; i++)
        for (int j = 0; j < N; j++) {
            unsigned sum = 0;
            for (int k = 0; k < N; k++)
                sum += left[i][k] * right[k][j];
            product[i][j] = sum;
        }
}

int main(void)
{
    int count = rounds(80);
    unsigned state = 1, trace = 0;

    for (int i = 0; i < N; i++)
        for (int j = 0; j < N; j++) {
            left[i][j] = next_number(&state);
            right[i][j] = next_number(&state);
        }
    for (int round = 0; round < count; round++) {
        multiply();
        for (int i = 0; i < N; i++)
            for (int j = 0; j < N; j++)
                left[i][j] = product[i][j];
    }
    for (int i = 0; i < N; i++)
        trace += product[i][i];
    printf("the trace of %d products of %d rows: %08x\n", count, N, trace);
    return 0;
}
