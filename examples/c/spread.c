/* A broadcast of N numbers of rank 0, in PHASES phases: in one phase rank 0 sends all of them to each rank; in two phases it deals out
   blocks, and then each rank sends its block to each rank. */
#include <bsp.h>

#ifndef N
#define N 64
#endif
#ifndef PHASES
#define PHASES 1
#endif

static int x[N];

/* The block of rank s goes to rank t. */
static void put_block(int s, int t, int size)
{
    int first = s * size, count = N - first < size ? N - first : size;

    if (count > 0)
        bsp_put(t, x + first, x, first * (int)sizeof(int), count * (int)sizeof(int));
}

int main(void)
{
    bsp_begin(bsp_nprocs());
    int p = bsp_nprocs(), s = bsp_pid(), size = (N + p - 1) / p;

    bsp_push_reg(x, sizeof x);
    bsp_sync();
    for (int t = 1; t < p && s == 0; t++)
        put_block(PHASES == 1 ? 0 : t, t, PHASES == 1 ? N : size);
    bsp_sync();
    if (PHASES == 2) {
        for (int t = 0; t < p; t++)
            if (t != s)
                put_block(s, t, size);
        bsp_sync();
    }
    bsp_end();
    return 0;
}
