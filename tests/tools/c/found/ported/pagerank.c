/* PageRank of a small web of a file of links; the result is a table of columns, appended to by each rank in turn. */
#include <bsp.h>
#include <inttypes.h>
#include <stdbool.h>
#include <stdint.h>
#include <stdio.h>
#include <stdlib.h>
#define DAMPING 0.85
enum { MAX = 64 };
static uint8_t links[MAX][MAX];
static double rank[MAX], next[MAX];
int main(int argc, char **argv)
{
    bsp_begin(bsp_nprocs());
    uint32_t n = 0, from, to;
    FILE *f = fopen(argc > 1 ? argv[1] : "links.txt", "r");
    if (!f) { perror("links"); bsp_abort("no links\n"); }
    while (fscanf(f, "%" SCNu32 " -> %" SCNu32, &from, &to) == 2) {
        links[from][to] = 1;
        if (from >= n) n = from + 1;
        if (to >= n) n = to + 1;
    }
    fclose(f);
    bsp_push_reg(next, sizeof next);
    bsp_sync();
    for (uint32_t i = 0; i < n; i++) rank[i] = 1.0 / n;
    bool done = false;
    int rounds = 0;
    while (!done && rounds < 30) {
        for (uint32_t j = bsp_pid(); j < n; j += bsp_nprocs()) {
            double sum = (1 - DAMPING) / n;
            for (uint32_t i = 0; i < n; i++) {
                int out = 0;
                for (uint32_t k = 0; k < n; k++) out += links[i][k];
                if (out == 0) sum += DAMPING * rank[i] / n;
                else if (links[i][j]) sum += DAMPING * rank[i] / out;
            }
            for (int r = 0; r < bsp_nprocs(); r++) bsp_put(r, &sum, next, j * sizeof sum, sizeof sum);
        }
        bsp_sync();
        double change = 0;
        for (uint32_t i = 0; i < n; i++) { change += next[i] > rank[i] ? next[i] - rank[i] : rank[i] - next[i]; rank[i] = next[i]; }
        done = change < 1e-6;
        rounds++;
    }
    for (int turn = 0; turn < bsp_nprocs(); turn++) {
        if (turn == bsp_pid()) {
            FILE *table = fopen("ranks.csv", turn == 0 ? "w" : "a");
            if (turn == 0) fprintf(table, "page,rank\n");
            for (uint32_t j = n * turn / bsp_nprocs(); j < n * (turn + 1) / bsp_nprocs(); j++)
                fprintf(table, "%" PRIu32 ",%.6f\n", j, rank[j]);
            fclose(table);
        }
        bsp_sync();
    }
    if (bsp_pid() == 0) printf("%d rounds over %" PRIu32 " pages\n", rounds, n);
    bsp_end();
    return 0;
}
