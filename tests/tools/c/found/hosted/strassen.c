/* Strassen's seven products, one for each of seven processes; the quadrants are fetched from process 0. */
#include <bsp.h>
#include <assert.h>
#include <stdio.h>
#include <stdlib.h>
#include <string.h>

enum { N = 16, H = N / 2 };
typedef double Block[H][H];

static double A[N][N], B[N][N], C[N][N];

static void quarter(Block to, double from[N][N], int r, int c)
{
    for (int i = 0; i < H; ++i) memcpy(to[i], &from[r * H + i][c * H], H * sizeof(double));
}

static void add(Block to, Block x, Block y, double sign)
{
    for (int i = 0; i < H; ++i)
        for (int j = 0; j < H; ++j) to[i][j] = x[i][j] + sign * y[i][j];
}

static void mul(Block to, Block x, Block y)
{
    memset(to, 0, sizeof(Block));
    for (int i = 0; i < H; ++i)
        for (int k = 0; k < H; ++k)
            for (int j = 0; j < H; ++j) to[i][j] += x[i][k] * y[k][j];
}

int main(int argc, char *argv[])
{
    bsp_begin(7);
    const int s = bsp_pid();
    assert(bsp_nprocs() == 7);
    bsp_push_reg(A, s == 0 ? sizeof A : 0);
    bsp_push_reg(B, s == 0 ? sizeof B : 0);
    Block *M = malloc(7 * sizeof *M);
    bsp_push_reg(M, 7 * sizeof *M);
    if (s == 0)
        for (int i = 0; i < N; ++i)
            for (int j = 0; j < N; ++j) A[i][j] = (i + 2 * j) % 5 - 2, B[i][j] = (i * j) % 7 - 3;
    bsp_sync();
    bsp_get(0, A, 0, A, sizeof A);
    bsp_get(0, B, 0, B, sizeof B);
    bsp_sync();
    Block a[2][2], b[2][2], x, y, m;
    for (int i = 0; i < 4; ++i) quarter(a[i / 2][i % 2], A, i / 2, i % 2), quarter(b[i / 2][i % 2], B, i / 2, i % 2);
    switch (s) {
    case 0: add(x, a[0][0], a[1][1], 1); add(y, b[0][0], b[1][1], 1); break;
    case 1: add(x, a[1][0], a[1][1], 1); memcpy(y, b[0][0], sizeof y); break;
    case 2: memcpy(x, a[0][0], sizeof x); add(y, b[0][1], b[1][1], -1); break;
    case 3: memcpy(x, a[1][1], sizeof x); add(y, b[1][0], b[0][0], -1); break;
    case 4: add(x, a[0][0], a[0][1], 1); memcpy(y, b[1][1], sizeof y); break;
    case 5: add(x, a[1][0], a[0][0], -1); add(y, b[0][0], b[0][1], 1); break;
    case 6: add(x, a[0][1], a[1][1], -1); add(y, b[1][0], b[1][1], 1); break;
    default: abort();
    }
    mul(m, x, y);
    bsp_hpput(0, m, M, s * sizeof m, sizeof m);
    bsp_sync();
    if (s == 0) {
        double trace = 0, wrong = 0;
        for (int i = 0; i < H; ++i)
            for (int j = 0; j < H; ++j) {
                C[i][j] = M[0][i][j] + M[3][i][j] - M[4][i][j] + M[6][i][j];
                C[i][j + H] = M[2][i][j] + M[4][i][j];
                C[i + H][j] = M[1][i][j] + M[3][i][j];
                C[i + H][j + H] = M[0][i][j] - M[1][i][j] + M[2][i][j] + M[5][i][j];
            }
        for (int i = 0; i < N; ++i)
            for (int j = 0; j < N; ++j) {
                double t = 0;
                for (int k = 0; k < N; ++k) t += A[i][k] * B[k][j];
                wrong += t != C[i][j];
                if (i == j) trace += C[i][j];
            }
        printf("trace = %g, wrong = %g, last row:", trace, wrong);
        for (int j = 0; j < N; ++j) printf("%+5.0f", C[N - 1][j]);
        putchar('\n');
    }
    free(M);
    bsp_end();
    return EXIT_SUCCESS;
}
