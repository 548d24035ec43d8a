/* A total that is wrong: each rank puts its part into a table of rank 0, which adds them up. Four ranks should print 100.
   docs/manual/gdb.md finds out why they do not. */
#include <bsp.h>
#include <stdio.h>

#define MOST 64

static int parts[MOST];

static int part_of(int rank)
{
    return 10 * (rank + 1);
}

int main(void)
{
    int p, s, part, total = 0;

    bsp_begin(MOST);
    p = bsp_nprocs();
    s = bsp_pid();
    bsp_push_reg(parts, sizeof parts);
    bsp_sync();

    part = part_of(s);
    bsp_put(0, &part, parts, s, sizeof part);
    bsp_sync();

    if (s == 0) {
        for (int i = 0; i < p; i++)
            total += parts[i];
        printf("the total is %d\n", total);
    }
    bsp_end();
    return 0;
}
