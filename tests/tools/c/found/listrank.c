/* How far each element of a list is from its end: pointers jump, by gets. */
#include <bsp.h>
#include <stdio.h>

#define N 48

static int next[N], rank[N], his_next[N], his_rank[N];

int main(int argc, char **argv)
{
    bsp_begin(bsp_nprocs());
    int p = bsp_nprocs(), s = bsp_pid(), n = N / p, i, step, first = s * n;
    /* Element i is followed by i + 7 modulo N, and the last one, which is N - 7, by itself. */
    for (i = 0; i < n; i++) {
        int me = first + i;
        next[i] = me == N - 7 ? me : (me + 7) % N;
        rank[i] = me == N - 7 ? 0 : 1;
    }
    bsp_push_reg(next, sizeof next);
    bsp_push_reg(rank, sizeof rank);
    bsp_sync();
    for (step = 1; step < N; step *= 2) {
        for (i = 0; i < n; i++) {
            bsp_hpget(next[i] / n, next, next[i] % n * sizeof(int), &his_next[i], sizeof(int));
            bsp_hpget(next[i] / n, rank, next[i] % n * sizeof(int), &his_rank[i], sizeof(int));
        }
        bsp_sync();
        for (i = 0; i < n; i++) {
            rank[i] += his_rank[i];
            next[i] = his_next[i];
        }
        bsp_sync();
    }
    for (i = 0; i < n; i++)
        printf("%d%c", rank[i], (first + i) % 12 == 11 ? '\n' : ' ');
    bsp_end();
    return 0;
}
