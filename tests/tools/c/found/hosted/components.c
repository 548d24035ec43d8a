/* Connected components: each rank has edges, and labels go down until none changes. The edges are in a file. */
#include <bsp.h>
#include <stdio.h>
#include <stdlib.h>

#define MOST 64

int main(void)
{
    int label[MOST], from[MOST], to[MOST], changed[16], n = 0, m = 0, u, v, i, t, any = 1, rounds = 0;
    char line[80];
    FILE *file;
    bsp_begin(bsp_nprocs());
    if ((file = fopen("edges.txt", "r")) == NULL) {
        perror("edges.txt");
        exit(1);
    }
    while (fgets(line, sizeof line, file))
        if (line[0] != '#' && sscanf(line, "%d %d", &u, &v) == 2) {
            if (m++ % bsp_nprocs() == bsp_pid())
                from[m / bsp_nprocs()] = u, to[m / bsp_nprocs()] = v;
            n = u > n ? u : n;
            n = v > n ? v : n;
        }
    fclose(file);
    for (i = 0; i <= n; i++)
        label[i] = i;
    bsp_push_reg(label, sizeof label);
    bsp_push_reg(changed, sizeof changed);
    bsp_sync();
    while (any) {
        int mine = 0, smallest[MOST];
        for (i = 0; i <= n; i++)
            smallest[i] = label[i];
        rewind(file = fopen("edges.txt", "r"));
        for (m = 0; fgets(line, sizeof line, file);)
            if (line[0] != '#' && sscanf(line, "%d %d", &u, &v) == 2 && m++ % bsp_nprocs() == bsp_pid()) {
                int low = smallest[u] < smallest[v] ? smallest[u] : smallest[v];
                mine |= low != smallest[u] || low != smallest[v];
                smallest[u] = smallest[v] = low;
            }
        fclose(file);
        for (t = 0; t < bsp_nprocs(); t++)
            bsp_put(t, &mine, changed, bsp_pid() * (int)sizeof(int), sizeof(int));
        bsp_sync();
        /* Each rank in its turn takes its labels to all. */
        for (t = 0; t < bsp_nprocs(); t++) {
            if (t == bsp_pid()) {
                int r;
                for (i = 0; i <= n; i++)
                    smallest[i] = smallest[i] < label[i] ? smallest[i] : label[i];
                for (r = 0; r < bsp_nprocs(); r++)
                    bsp_put(r, smallest, label, 0, (n + 1) * (int)sizeof(int));
            }
            bsp_sync();
        }
        for (any = 0, t = 0; t < bsp_nprocs(); t++)
            any |= changed[t];
        rounds++;
    }
    if (bsp_pid() == 0) {
        printf("%d nodes:", n + 1);
        for (i = 0; i <= n; i++)
            printf(" %d", label[i]);
        printf("\n");
    }
    bsp_end();
    return rounds > 50;
}
