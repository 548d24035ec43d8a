/* Unbuffered puts in a ring: each rank sends the number that its neighbour overwrites. With two ranks the four bytes of number are exposed. */
#include <bsp.h>
#include <stdio.h>

int number, other;

int main(void)
{
    bsp_begin(bsp_nprocs());
    int p = bsp_nprocs(), s = bsp_pid();
    number = 10 + s;
    bsp_push_reg(&number, sizeof number);
    bsp_push_reg(&other, sizeof other);
    bsp_sync();
    bsp_hpput((s + 1) % p, &number, &number, 0, sizeof number);
    bsp_sync();
    bsp_put((s + 1) % p, &number, &other, 0, sizeof number);
    bsp_sync();
    printf("%d %d\n", number, other);
    bsp_end();
    return 0;
}
