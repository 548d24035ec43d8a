/* A vector to all processes, in one phase and in two. */
#include <bsp.h>
#include <stdio.h>

#define N 40

static int x[N];

void one_phase(int root)
{
    if (bsp_pid() == root)
        for (int t = 0; t < bsp_nprocs(); t++)
            bsp_put(t, x, x, 0, N * sizeof(int));
    bsp_sync();
}

void two_phase(int root)
{
    int p = bsp_nprocs(), s = bsp_pid(), b = (N + p - 1) / p;
    if (s == root)
        for (int t = 0; t * b < N; t++) {
            int m = N - t * b < b ? N - t * b : b;
            bsp_hpput(t, x + t * b, x, t * b * sizeof(int), m * sizeof(int));
        }
    bsp_sync();
    if (s * b < N)
        for (int t = 0; t < p; t++) {
            int m = N - s * b < b ? N - s * b : b;
            bsp_hpput(t, x + s * b, x, s * b * sizeof(int), m * sizeof(int));
        }
    bsp_sync();
}

int main(void)
{
    int right = 1, all = 1;
    bsp_begin(bsp_nprocs());
    bsp_push_reg(x, sizeof x);
    bsp_push_reg(&all, sizeof all);
    bsp_sync();
    for (int phases = 1; phases <= 2; phases++) {
        for (int i = 0; i < N; i++)
            x[i] = bsp_pid() == 0 ? phases * i : -1;
        bsp_sync();
        phases == 1 ? one_phase(0) : two_phase(0);
        for (int i = 0; i < N; i++)
            right = right && x[i] == phases * i;
    }
    if (!right)
        bsp_put(0, &right, &all, 0, sizeof right);
    right = 0;
    bsp_sync();
    if (bsp_pid() == 0)
        printf("both broadcasts are %s\n", all ? "right" : "wrong");
    bsp_end();
    return 0;
}
