/* Odd-even transposition sort. The numbers are asked for. */
#include <stdio.h>
#include <stdlib.h>
#include <bsp.h>

void spmd(void);
int n;

static int compare(const void *a, const void *b)
{
    int x = *(const int *)a, y = *(const int *)b;
    return (x > y) - (x < y);
}

void spmd(void)
{
    int p, s, i, step, share, *mine, *other, *all = NULL;
    bsp_begin(bsp_nprocs());
    p = bsp_nprocs();
    s = bsp_pid();
    bsp_push_reg(&n, sizeof(int));
    bsp_sync();
    bsp_get(0, &n, 0, &n, sizeof(int));
    bsp_sync();
    share = (n + p - 1) / p;
    mine = (int *)malloc(share * sizeof(int));
    other = (int *)malloc(2 * share * sizeof(int));
    bsp_push_reg(mine, share * sizeof(int));
    bsp_push_reg(other, 2 * share * sizeof(int));
    bsp_sync();
    if (s == 0) {
        all = malloc(share * p * sizeof(int));
        printf("Please enter %d numbers:\n", n);
        for (i = 0; i < share * p; i++)
            if (i >= n || scanf("%d", &all[i]) != 1)
                all[i] = 1 << 30;
        for (i = 0; i < p; i++)
            bsp_put(i, all + i * share, mine, 0, share * sizeof(int));
    }
    bsp_sync();
    qsort(mine, share, sizeof(int), compare);
    for (step = 0; step < p; step++) {
        int partner = (step + s) % 2 == 0 ? s + 1 : s - 1;
        if (partner >= 0 && partner < p)
            bsp_get(partner, mine, 0, other + share, share * sizeof(int));
        bsp_sync();
        if (partner >= 0 && partner < p) {
            for (i = 0; i < share; i++)
                other[i] = mine[i];
            qsort(other, 2 * share, sizeof(int), compare);
            for (i = 0; i < share; i++)
                mine[i] = other[partner > s ? i : share + i];
        }
        bsp_sync();
    }
    if (s == 0)
        bsp_push_reg(all, share * p * sizeof(int));
    else
        bsp_push_reg(NULL, 0);
    bsp_sync();
    /* gather by gets of rank 0 */
    if (s == 0)
        for (i = 0; i < p; i++)
            bsp_get(i, mine, 0, all + i * share, share * sizeof(int));
    bsp_sync();
    if (s == 0)
        for (i = 0; i < n; i++)
            printf("%d%c", all[i], i % 8 == 7 || i == n - 1 ? '\n' : ' ');
    bsp_end();
}

int main(int argc, char **argv)
{
    bsp_init(&spmd, argc, argv);
    printf("How many numbers? ");
    fflush(stdout);
    if (scanf("%d", &n) != 1 || n < 1) {
        printf("that is no number\n");
        return 1;
    }
    spmd();
    return 0;
}
