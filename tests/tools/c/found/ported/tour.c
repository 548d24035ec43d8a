#include <stdio.h>
#include <stdlib.h>
#include <string.h>
#include <unistd.h>
#include <getopt.h>
#include <limits.h>
#include <bsp.h>
/* The shortest tour by trying all. Usage: tour [-n CITIES] [-v] [--seed SEED] */
static int n = 7, verbose, dist[12][12], best = INT_MAX, tour[12], path[12], used[12];
static void search(int depth, int len)
{
    if (len >= best)
        return;
    if (depth == n) {
        len += dist[path[n - 1]][0];
        if (len < best) {
            best = len;
            memcpy(tour, path, sizeof tour);
        }
        return;
    }
    for (int c = 1; c < n; c++)
        if (!used[c]) {
            used[c] = 1;
            path[depth] = c;
            search(depth + 1, len + dist[path[depth - 1]][c]);
            used[c] = 0;
        }
}
int main(int argc, char *argv[])
{
    static struct option longopts[] = {{"seed", required_argument, NULL, 's'}, {"verbose", no_argument, NULL, 'v'}, {NULL, 0, NULL, 0}};
    int opt;
    unsigned seed = 1;
    bsp_begin(bsp_nprocs());
    while ((opt = getopt_long(argc, argv, "n:v", longopts, NULL)) != -1)
        switch (opt) {
        case 'n': n = atoi(optarg); break;
        case 'v': verbose = 1; break;
        case 's': seed = strtoul(optarg, NULL, 0); break;
        default: bsp_abort("usage: %s [-n cities] [-v] [--seed S]\n", argv[0]);
        }
    for (int i = 0; i < n; i++)
        for (int j = 0; j < i; j++) {
            seed = seed * 1664525u + 1013904223u;
            dist[i][j] = dist[j][i] = 1 + (seed >> 24) % 99;
        }
    for (int c = 1 + bsp_pid(); c < n; c += bsp_nprocs()) {
        path[0] = 0;
        path[1] = c;
        used[c] = 1;
        search(2, dist[0][c]);
        used[c] = 0;
    }
    int *res = malloc(bsp_nprocs() * 13 * sizeof(int)), mine[13];
    mine[0] = best;
    memcpy(mine + 1, tour, sizeof tour);
    bsp_push_reg(res, bsp_nprocs() * sizeof mine);
    bsp_sync();
    bsp_put(0, mine, res, bsp_pid() * sizeof mine, sizeof mine);
    bsp_sync();
    if (bsp_pid() == 0) {
        int b = 0;
        for (int i = 1; i < bsp_nprocs(); i++)
            if (res[13 * i] < res[13 * b])
                b = i;
        printf("shortest tour of %d cities: %d", n, res[13 * b]);
        if (verbose) {
            printf(" (");
            for (int i = 0; i < n; i++)
                printf("%s%d", i ? "-" : "", res[13 * b + 1 + i]);
            printf(")");
        }
        printf("\n");
    }
    bsp_end();
    return 0;
}
