/* Primes up to the number on the command line. */
#include <bsp.h>
#include <math.h>
#include <stdio.h>
#include <stdlib.h>
#include <string.h>

static int upto = 100;

void sieve(void)
{
    bsp_begin(bsp_nprocs());
    int p = bsp_nprocs(), s = bsp_pid(), count = 0, total = 0, *counts = calloc(p, sizeof(int));
    bsp_push_reg(&upto, sizeof upto);
    bsp_push_reg(counts, p * sizeof(int));
    bsp_sync();
    bsp_get(0, &upto, 0, &upto, sizeof upto);
    bsp_sync();
    int width = (upto + p) / p, low = s * width, high = low + width, root = (int)sqrt((double)upto);
    char *composite = malloc(width), *small = calloc(root + 2, 1);
    memset(composite, 0, width);
    for (int i = 2; i <= root; i++) {
        if (small[i])
            continue;
        for (int j = i * i; j <= root; j += i)
            small[j] = 1;
        for (int j = (low + i - 1) / i * i < i * i ? i * i : (low + i - 1) / i * i; j < high; j += i)
            composite[j - low] = 1;
    }
    for (int i = low; i < high && i <= upto; i++)
        count += i >= 2 && !composite[i - low];
    bsp_put(0, &count, counts, s * sizeof(int), sizeof(int));
    bsp_sync();
    if (s == 0) {
        for (int i = 0; i < p; i++)
            total += counts[i];
        printf("%d primes up to %d\n", total, upto);
    }
    bsp_end();
}

int main(int argc, char *argv[])
{
    bsp_init(sieve, argc, argv);
    if (argc != 2) {
        fprintf(stderr, "usage: %s N\n", argv[0]);
        return EXIT_FAILURE;
    }
    upto = atoi(argv[1]);
    sieve();
    return EXIT_SUCCESS;
}
