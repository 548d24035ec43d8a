/* Products of polynomials with whole numbers of 64 bits. */
#include <bsp.h>
#include <inttypes.h>
#include <stdio.h>

#define N 12

int main(void)
{
    int64_t a[N], b[N], c[2 * N - 1], part[2 * N - 1] = {0}, all[16][2 * N - 1];
    int i, j, t;
    bsp_begin(bsp_nprocs());
    for (i = 0; i < N; i++)
        a[i] = (int64_t)1000003 * (i + 1), b[i] = (i % 2 ? -1 : 1) * (int64_t)99991 * (N - i);
    bsp_push_reg(all, sizeof all);
    bsp_sync();
    for (i = bsp_pid(); i < N; i += bsp_nprocs())
        for (j = 0; j < N; j++)
            part[i + j] += a[i] * b[j];
    bsp_put(0, part, all, bsp_pid() * (int)sizeof part, sizeof part);
    bsp_sync();
    if (bsp_pid() == 0)
        for (i = 0; i < 2 * N - 1; i++) {
            c[i] = 0;
            for (t = 0; t < bsp_nprocs(); t++)
                c[i] += all[t][i];
            printf("%" PRId64 "%s", c[i], i % 6 == 5 || i == 2 * N - 2 ? "\n" : " ");
        }
    bsp_end();
    return 0;
}
