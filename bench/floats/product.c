/* A product of two matrices of N rows and columns by three loops, in blocks of rows: of any numbers, or with -DWHOLE of small whole ones,
   zeros among them, whose sums are exact. With -DREAL=float they are singles. */
#include <bsp.h>

#include "result.h"

#ifndef N
#define N 100
#endif
#ifndef REAL
#define REAL double
#endif

static REAL left[N][N], right[N][N], product[N][N];

static REAL element(int at)
{
    double number = some_number(at);
#ifdef WHOLE
    number = (int)(number * 5);
#endif
    return (REAL)number;
}

int main(void)
{
    bsp_begin(bsp_nprocs());
    int p = bsp_nprocs(), s = bsp_pid(), first = N * s / p, end = N * (s + 1) / p;
    for (int i = 0; i < N; i++)
        for (int j = 0; j < N; j++) {
            left[i][j] = element(2 * (N * i + j));
            right[i][j] = element(2 * (N * i + j) + 1);
        }
    bsp_push_reg(product, sizeof product);
    bsp_sync();

    for (int i = first; i < end; i++)
        for (int j = 0; j < N; j++) {
            REAL sum = 0;
            for (int k = 0; k < N; k++)
                sum += left[i][k] * right[k][j];
            product[i][j] = sum;
        }
    if (s != 0)
        bsp_put(0, product[first], product, first * (int)sizeof product[0], (end - first) * (int)sizeof product[0]);
    bsp_sync();

    if (s == 0)
        print_result("product", (double)product[N - 1][N - 1], product, sizeof product);
    bsp_end();
    return 0;
}
