/* Euler's function by a loop in turns, as a first program. */
#include <bsp.h>
#include <stdio.h>

static int gcd(int a, int b) { return b == 0 ? a : gcd(b, a % b); }

void spmd(void)
{
    int n, k, count;
    bsp_begin(bsp_nprocs());
    for (n = bsp_pid() + 1; n <= 20; n += bsp_nprocs()) {
        for (count = 0, k = 1; k <= n; k++)
            count += gcd(n, k) == 1;
        printf("phi(%d) = %d\n", n, count);
    }
    bsp_end();
}

int main(int argc, char **argv)
{
    bsp_init(spmd, argc, argv);
    spmd();
    return 0;
}
