/* Shortest ways by Bellman and Ford: each rank has the arcs out of its vertices, and sends what it finds as messages. */
#include <bsp.h>
#include <limits.h>
#include <stdio.h>

#define VERTICES 20
#define FAR (INT_MAX / 2)

struct arc { short from, to; int length; };
static struct arc arcs[3 * VERTICES];

int main(void)
{
    int way[VERTICES], changed[64], many = 0, rounds = 0, going = 1, tag_size = sizeof(short);

    for (int v = 0; v < VERTICES; v++) {
        arcs[many++] = (struct arc){v, (v * 7 + 3) % VERTICES, 4 + v % 5};
        arcs[many++] = (struct arc){v, (v + 1) % VERTICES, 11};
        arcs[many++] = (struct arc){v, (v * v) % VERTICES, 2 + v % 3};
        way[v] = v == 0 ? 0 : FAR;
    }
    bsp_begin(bsp_nprocs());
    int p = bsp_nprocs(), s = bsp_pid();
    bsp_push_reg(changed, sizeof changed);
    bsp_set_tagsize(&tag_size);
    bsp_sync();
    while (going) {
        int count, status, mine = 0;
        for (int i = 0; i < many; i++)
            if (arcs[i].from % p == s && way[arcs[i].from] < FAR) {
                int length = way[arcs[i].from] + arcs[i].length;
                bsp_send(arcs[i].to % p, &arcs[i].to, &length, sizeof length);
            }
        bsp_sync();
        for (bsp_qsize(&count, NULL); count > 0; count--) {
            short to;
            int length;
            bsp_get_tag(&status, &to);
            bsp_move(&length, status);
            if (length < way[to])
                way[to] = length, mine = 1;
        }
        for (int t = 0; t < p; t++)
            bsp_put(t, &mine, changed, s * (int)sizeof mine, sizeof mine);
        bsp_sync();
        going = 0;
        for (int t = 0; t < p; t++)
            going |= changed[t];
        rounds++;
    }
    for (int v = s; v < VERTICES; v += p)
        printf("%2d: %3d%s", v, way[v], v + p < VERTICES ? ", " : "\n");
    if (s == p - 1)
        printf("after %d rounds\n", rounds);
    bsp_end();
    return 0;
}
