/* A cube of numbers by pointers to pointers, relaxed in slabs, with the norm of what changes by an all-reduce of its own. */
#include <bsp.h>
#include <math.h>
#include <stdio.h>
#include <stdlib.h>

#define NX 8
#define SWAP(T, a, b) do { T t_ = (a); (a) = (b); (b) = t_; } while (0)

static double ***cube_new(int x, int y, int z)
{
    double ***c = malloc(x * sizeof *c);
    double *all = calloc((size_t)x * y * z, sizeof *all);
    for (int i = 0; i < x; i++) {
        c[i] = malloc(y * sizeof **c);
        for (int j = 0; j < y; j++)
            c[i][j] = all + (i * y + j) * z;
    }
    return c;
}

static void cube_free(double ***c, int x)
{
    free(c[0][0]);
    while (x-- > 0) free(c[x]);
    free(c);
}

static double allreduce(double value, double (*op)(double, double))
{
    int p = bsp_nprocs();
    double *parts = malloc(p * sizeof(double)), result = value;
    bsp_push_reg(&value, sizeof value);
    bsp_sync();
    for (int t = 0; t < p; t++)
        bsp_get(t, &value, 0, &parts[t], sizeof value);
    bsp_sync();
    result = parts[0];
    for (int t = 1; t < p; t++)
        result = op(result, parts[t]);
    bsp_pop_reg(&value);
    free(parts);
    return result;
}

static double plus(double a, double b) { return a + b; }

int main(void)
{
    bsp_begin(bsp_nprocs());
    int p = bsp_nprocs(), s = bsp_pid(), nx = NX / p, plane = NX * NX * sizeof(double);
    double ***u = cube_new(nx + 2, NX, NX), ***v = cube_new(nx + 2, NX, NX);
    bsp_push_reg(u[0][0], (nx + 2) * plane);
    bsp_push_reg(v[0][0], (nx + 2) * plane);
    bsp_sync();
    for (int i = 0; i < nx + 2; i++)
        for (int k = 0; k < NX; k++)
            u[i][0][k] = v[i][0][k] = 1.0;
    int step = 0;
    double change = 1, most = 0;
    while (change > 0.05 && step < 100) {
        if (s > 0) bsp_put(s - 1, u[1][0], u[0][0], (nx + 1) * plane, plane);
        if (s < p - 1) bsp_put(s + 1, u[nx][0], u[0][0], 0, plane);
        bsp_sync();
        double sum = 0, mine = 0;
        for (int i = s == 0 ? 2 : 1; i <= (s == p - 1 ? nx - 1 : nx); i++)
            for (int j = 1; j < NX - 1; j++)
                for (int k = 1; k < NX - 1; k++) {
                    v[i][j][k] = (u[i - 1][j][k] + u[i + 1][j][k] + u[i][j - 1][k] + u[i][j + 1][k] + u[i][j][k - 1] + u[i][j][k + 1]) / 6;
                    sum += pow(v[i][j][k] - u[i][j][k], 2);
                    mine = fmax(mine, fabs(v[i][j][k] - u[i][j][k]));
                }
        change = sqrt(allreduce(sum, plus));
        most = allreduce(mine, fmax);
        SWAP(double ***, u, v);
        step++;
    }
    printf("%d: %d steps, change %.6f, most %.6f, middle %.6f\n", s, step, change, most, u[1][NX / 2][NX / 2]);
    cube_free(u, nx + 2), cube_free(v, nx + 2);
    bsp_end();
    return 0;
}
