/* A plate in blocks of rows and columns: borders are packed into messages, and a test says when it is still. */
#include <bsp.h>
#include <math.h>
#include <stdio.h>

#define R 6
#define C 5

static double u[R + 2][C + 2], v[R + 2][C + 2], edge[4][R];

static void swap_edges(int si, int sj, int q)
{
    double out[4][R];
    const int near[4] = {si > 0 ? (si - 1) * q + sj : -1, si + 1 < q ? (si + 1) * q + sj : -1, sj > 0 ? si * q + sj - 1 : -1,
        sj + 1 < q ? si * q + sj + 1 : -1};
    for (int j = 0; j < C; j++)
        out[0][j] = u[1][j + 1], out[1][j] = u[R][j + 1];
    for (int i = 0; i < R; i++)
        out[2][i] = u[i + 1][1], out[3][i] = u[i + 1][C];
    for (int side = 0; side < 4; side++)
        if (near[side] >= 0)
            bsp_put(near[side], out[side], edge, (side ^ 1) * (int)sizeof *edge, (side < 2 ? C : R) * (int)sizeof(double));
    bsp_sync();
    for (int j = 0; j < C; j++) {
        if (near[0] >= 0) u[0][j + 1] = edge[0][j];
        if (near[1] >= 0) u[R + 1][j + 1] = edge[1][j];
    }
    for (int i = 0; i < R; i++) {
        if (near[2] >= 0) u[i + 1][0] = edge[2][i];
        if (near[3] >= 0) u[i + 1][C + 1] = edge[3][i];
    }
}

int main(void)
{
    static double worst[64];
    bsp_begin(bsp_nprocs());
    int p = bsp_nprocs(), s = bsp_pid(), q = (int)sqrt((double)p), si = s / q, sj = s % q, step = 0;
    double most = 2;

    bsp_push_reg(edge, sizeof edge);
    bsp_push_reg(worst, sizeof worst);
    bsp_sync();
    if (si == 0)
        for (int j = 0; j < C + 2; j++)
            u[0][j] = v[0][j] = 100;
    for (; most > 1 && step < 60; step++) {
        double mine = 0;
        swap_edges(si, sj, q);
        for (int i = 1; i <= R; i++)
            for (int j = 1; j <= C; j++) {
                v[i][j] = (u[i - 1][j] + u[i + 1][j] + u[i][j - 1] + u[i][j + 1]) / 4;
                mine = fmax(mine, fabs(v[i][j] - u[i][j]));
            }
        for (int i = 1; i <= R; i++)
            for (int j = 1; j <= C; j++)
                u[i][j] = v[i][j];
        for (int t = 0; t < p; t++)
            bsp_put(t, &mine, worst, s * (int)sizeof mine, sizeof mine);
        bsp_sync();
        for (most = 0, s = 0; s < p; s++)
            most = fmax(most, worst[s]);
        s = bsp_pid();
    }
    printf("block %d, %d after %d steps: %.3f %.3f %.3f\n", si, sj, step, u[1][1], u[R / 2][C / 2], u[R][C]);
    bsp_end();
    return 0;
}
