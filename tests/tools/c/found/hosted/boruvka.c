/* A smallest spanning tree by Boruvka: each process looks at its edges, and the cheapest one of each component is agreed on. */
#include <limits.h>
#include <stdio.h>
#include <stdlib.h>
#include <bsp.h>

typedef struct { unsigned short from, to; int weight; } edge_t;

#define V 24
#define E 60

static int parent[V];
static int find(int v) { return parent[v] == v ? v : (parent[v] = find(parent[v])); }

static edge_t edge(int i)
{
    edge_t e;
    if (i < V - 1) { e.from = i; e.to = i + 1; }
    else { e.from = (i * 5) % V; e.to = (i * 11 + 3) % V; }
    e.weight = (i * 37 + 11) % 101 + 1;
    return e;
}

static int cheaper(edge_t a, edge_t b)
{
    if (a.weight != b.weight) return a.weight < b.weight;
    if (a.from != b.from) return a.from < b.from;
    return a.to < b.to;
}

int main(void)
{
    int p, s, i, t, rounds = 0, joined, total = 0, edges = 0;
    static edge_t best[V], *all;
    const edge_t none = { 0, 0, INT_MAX };

    bsp_begin(bsp_nprocs());
    p = bsp_nprocs(); s = bsp_pid();
    all = (edge_t *)malloc(p * sizeof best);
    bsp_push_reg(all, p * sizeof best);
    bsp_sync();
    for (i = 0; i < V; i++) parent[i] = i;
    do {
        for (i = 0; i < V; i++) best[i] = none;
        for (i = s; i < E; i += p) {
            edge_t e = edge(i);
            int a = find(e.from), b = find(e.to);
            if (a == b) continue;
            if (cheaper(e, best[a])) best[a] = e;
            if (cheaper(e, best[b])) best[b] = e;
        }
        for (t = 0; t < p; t++) bsp_put(t, best, all, s * sizeof best, sizeof best);
        bsp_sync();
        for (t = 0; t < p; t++)
            for (i = 0; i < V; i++)
                if (cheaper(all[t * V + i], best[i])) best[i] = all[t * V + i];
        for (joined = i = 0; i < V; i++) {
            if (best[i].weight == INT_MAX) continue;
            int a = find(best[i].from), b = find(best[i].to);
            if (a != b) { parent[a] = b; total += best[i].weight; edges++; joined++; }
        }
        rounds++;
    } while (joined > 0);
    printf("process %d of %d: tree of weight %d with %d edges in %d rounds\n", s, p, total, edges, rounds);
    free(all);
    bsp_end();
    return 0;
}
