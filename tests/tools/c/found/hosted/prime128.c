/* Miller and Rabin's test of numbers of 64 bits, whose products take 128. */
#include <bsp.h>
#include <inttypes.h>
#include <stdio.h>

static uint64_t mulmod(uint64_t a, uint64_t b, uint64_t m)
{
    return (uint64_t)((unsigned __int128)a * b % m);
}

static uint64_t powmod(uint64_t a, uint64_t e, uint64_t m)
{
    uint64_t r = 1;
    for (; e; e >>= 1, a = mulmod(a, a, m))
        if (e & 1)
            r = mulmod(r, a, m);
    return r;
}

static int is_prime(uint64_t n)
{
    static const uint64_t bases[] = {2, 3, 5, 7, 11, 13, 17, 19, 23, 29, 31, 37};
    int r = __builtin_ctzll(n - 1);
    if (n < 2 || n % 2 == 0)
        return n == 2;
    for (int i = 0; i < 12; i++) {
        if (n == bases[i])
            return 1;
        uint64_t x = powmod(bases[i], (n - 1) >> r, n);
        int composite = x != 1 && x != n - 1;
        for (int k = 1; k < r && composite; k++)
            if ((x = mulmod(x, x, n)) == n - 1)
                composite = 0;
        if (composite)
            return 0;
    }
    return 1;
}

int main(void)
{
    bsp_begin(bsp_nprocs());
    uint64_t n = UINT64_C(18446744073709551557) - 2 * (uint64_t)bsp_pid();
    while (!is_prime(n))
        n -= 2 * (uint64_t)bsp_nprocs();
    printf("%d: %" PRIu64 "\n", bsp_pid(), n);
    bsp_end();
    return 0;
}
