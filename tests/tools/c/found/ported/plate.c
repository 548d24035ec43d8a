/* Temperatures on a square plate, single precision, with halo rows; the last state becomes a picture. */
#include <bsp.h>
#include <math.h>
#include <stdio.h>
#include <stdlib.h>
#include <string.h>
#define N 24
#define STEPS 60

typedef float row_t[N + 2];

int main(void)
{
    bsp_begin(bsp_nprocs());
    int p = bsp_nprocs(), s = bsp_pid();
    int lo = N * s / p, hi = N * (s + 1) / p, mine = hi - lo;
    row_t *u = calloc(mine + 2, sizeof(row_t)), *v = calloc(mine + 2, sizeof(row_t)), *all = NULL;
    float diff = 0.0f;
    int i, j, k;
    if (s == 0)
        all = calloc(N, sizeof(row_t));
    if (s == 0)
        for (j = 0; j < N + 2; j++)
            u[0][j] = v[0][j] = 100.0f;
    bsp_push_reg(u, (mine + 2) * sizeof(row_t));
    bsp_push_reg(v, (mine + 2) * sizeof(row_t));
    bsp_push_reg(all, s == 0 ? N * sizeof(row_t) : 0);
    bsp_sync();
    for (k = 0; k < STEPS; k++) {
        row_t *from = k % 2 ? v : u, *to = k % 2 ? u : v;
        int up = s - 1, down = s + 1;
        while (up >= 0 && N * up / p == N * (up + 1) / p) up--;
        while (down < p && N * down / p == N * (down + 1) / p) down++;
        if (mine > 0 && up >= 0)
            bsp_put(up, from[1], from, (N * (up + 1) / p - N * up / p + 1) * sizeof(row_t), sizeof(row_t));
        if (mine > 0 && down < p)
            bsp_put(down, from[mine], from, 0, sizeof(row_t));
        bsp_sync();
        for (i = 1; i <= mine; i++)
            for (j = 1; j <= N; j++)
                to[i][j] = 0.25f * (from[i - 1][j] + from[i + 1][j] + from[i][j - 1] + from[i][j + 1]);
    }
    for (i = 0; i < mine; i++) {
        row_t *last = STEPS % 2 ? v : u;
        bsp_put(0, last[i + 1], all, (lo + i) * sizeof(row_t), sizeof(row_t));
        for (j = 1; j <= N; j++)
            diff = fmaxf(diff, fabsf(u[i + 1][j] - v[i + 1][j]));
    }
    bsp_sync();
    if (s == 0) {
        FILE *f = fopen("plate.pgm", "w");
        if (f == NULL)
            bsp_abort("cannot write plate.pgm\n");
        fprintf(f, "P2\n# steps: %d\n%d %d\n255\n", STEPS, N, N);
        for (i = 0; i < N; i++)
            for (j = 1; j <= N; j++)
                fprintf(f, "%3d%c", (int)lrintf(all[i][j] * 2.55f), j == N ? '\n' : ' ');
        fclose(f);
        printf("centre %.4f corner %.4f\n", all[N / 2][N / 2], all[N - 1][1]);
    }
    bsp_end();
    return 0;
}
