/* Sorting by regular samples: as many processes as the first number of the input says, and the numbers behind it. */
#include <bsp.h>
#include <stdio.h>
#include <stdlib.h>

int P;

static int compare(const void *a, const void *b)
{
    return *(const int *)a - *(const int *)b;
}

void psrs(void)
{
    bsp_begin(P);
    int p = bsp_nprocs(), s = bsp_pid(), n = 0, size, *all = NULL, *keys = NULL, count = 0, i, t;
    if (s == 0) {
        int x, room = 0;
        while (scanf("%d", &x) == 1) {
            if (n == room)
                all = realloc(all, (room = 2 * room + 8) * sizeof(int));
            all[n++] = x;
        }
    }
    bsp_push_reg(&n, sizeof n);
    bsp_sync();
    bsp_get(0, &n, 0, &n, sizeof n);
    bsp_sync();
    size = (n + p - 1) / p;
    keys = malloc((n + 1) * sizeof(int));
    bsp_push_reg(all, s == 0 ? n * sizeof(int) : 0);
    bsp_sync();
    count = n - s * size < size ? n - s * size : size;
    count = count < 0 ? 0 : count;
    bsp_get(0, all, s * size * sizeof(int) * (count > 0), keys, count * sizeof(int));
    bsp_sync();
    qsort(keys, count, sizeof(int), compare);
    /* Every process gets every sample: there are p * p of them at most. */
    int *samples = malloc(p * p * sizeof(int)), packets, taken = 0;
    for (i = 0; i < p && count > 0; i++)
        for (t = 0; t < p; t++)
            bsp_send(t, NULL, &keys[i * count / p], sizeof(int));
    bsp_sync();
    bsp_qsize(&packets, NULL);
    for (; taken < packets; taken++)
        bsp_move(&samples[taken], sizeof(int));
    qsort(samples, taken, sizeof(int), compare);
    for (i = 0; i < count; i++) {
        for (t = 0; t + 1 < p && keys[i] >= samples[(t + 1) * taken / p]; t++)
            ;
        bsp_send(t, NULL, &keys[i], sizeof(int));
    }
    bsp_sync();
    bsp_qsize(&packets, NULL);
    for (count = 0; count < packets; count++)
        bsp_move(&keys[count], sizeof(int));
    qsort(keys, count, sizeof(int), compare);
    for (i = 0; i < count; i++)
        printf("%d\n", keys[i]);
    bsp_end();
}

int main(int argc, char **argv)
{
    bsp_init(psrs, argc, argv);
    scanf("%d", &P);
    psrs();
    return 0;
}
