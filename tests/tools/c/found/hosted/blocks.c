/* Primes by blocks: small primes are found by all, and each marks its block. */
#include <bsp.h>
#include <stdio.h>
#include <stdlib.h>
#include <string.h>

int main(int argc, char **argv)
{
    int n = argc > 1 ? atoi(argv[1]) : 500, p, s, low, high, i, q, mine = 0, sums[32];
    char *block;
    bsp_begin(bsp_nprocs());
    p = bsp_nprocs();
    s = bsp_pid();
    low = 2 + s * ((n - 1 + p - 1) / p);
    high = low + (n - 1 + p - 1) / p;
    if (high > n + 1)
        high = n + 1;
    block = calloc((size_t)(high - low) + 1, 1);
    for (q = 2; q * q <= n; q++)
        for (i = (low + q - 1) / q * q < 2 * q ? 2 * q : (low + q - 1) / q * q; i < high; i += q)
            block[i - low] = 1;
    for (i = low; i < high; i++)
        mine += !block[i - low];
    bsp_push_reg(sums, sizeof sums);
    bsp_sync();
    for (i = 0; i < p; i++)
        bsp_put(i, &mine, sums, s * (int)sizeof mine, sizeof mine);
    bsp_sync();
    for (q = i = 0; i < p; i++)
        q += sums[i];
    printf("%d: %d of %d primes up to %d\n", s, mine, q, n);
    free(block);
    bsp_end();
    return 0;
}
