/* Breadth-first search from vertex 0; edges are lines "a b" of a file. Vertices are dealt out in turn, and the frontier goes by messages. */
#include <bsp.h>
#include <errno.h>
#include <stdio.h>
#include <stdlib.h>
#include <string.h>

struct edge { int to; struct edge *next; };

int main(int argc, char **argv)
{
    bsp_begin(bsp_nprocs());
    int p = bsp_nprocs(), s = bsp_pid(), n = 0, a, b, level, active = 1, i;
    const char *name = argc > 1 ? argv[1] : "graph.txt";
    char line[128];
    FILE *f = fopen(name, "r");
    if (!f)
        bsp_abort("%s: %s\n", name, strerror(errno));
    struct edge **edges = calloc(1000, sizeof *edges);
    int *distance = malloc(1000 * sizeof *distance), *counts = calloc(p, sizeof *counts);
    while (fgets(line, sizeof line, f) != NULL) {
        if (line[0] == '#' || sscanf(line, "%d %d", &a, &b) != 2)
            continue;
        n = a >= n ? a + 1 : n;
        n = b >= n ? b + 1 : n;
        for (i = 0; i < 2; i++) {
            int from = i ? b : a, to = i ? a : b;
            if (from % p == s) {
                struct edge *e = malloc(sizeof *e);
                e->to = to;
                e->next = edges[from];
                edges[from] = e;
            }
        }
    }
    fclose(f);
    memset(distance, -1, 1000 * sizeof *distance);
    bsp_push_reg(counts, p * sizeof *counts);
    bsp_sync();
    if (s == 0)
        distance[0] = 0;
    for (level = 0; active > 0; level++) {
        int found = 0, status, v;
        for (i = s; i < n; i += p)
            if (distance[i] == level)
                for (struct edge *e = edges[i]; e; e = e->next)
                    bsp_send(e->to % p, NULL, &e->to, sizeof e->to);
        bsp_sync();
        for (bsp_get_tag(&status, NULL); status != -1; bsp_get_tag(&status, NULL)) {
            bsp_move(&v, sizeof v);
            if (distance[v] < 0) {
                distance[v] = level + 1;
                found++;
            }
        }
        for (i = 0; i < p; i++)
            bsp_put(i, &found, counts, s * sizeof found, sizeof found);
        bsp_sync();
        for (active = 0, i = 0; i < p; i++)
            active += counts[i];
    }
    int *all = calloc(n, sizeof *all);
    bsp_push_reg(all, n * sizeof *all);
    bsp_sync();
    for (i = s; i < n; i += p)
        bsp_put(0, &distance[i], all, i * sizeof *all, sizeof *all);
    bsp_sync();
    if (s == 0) {
        printf("%d vertices, %d levels\n", n, level);
        for (i = 0; i < n; i++)
            printf("%d%s", all[i], (i + 1) % 10 && i + 1 < n ? " " : "\n");
    }
    bsp_end();
    return 0;
}
