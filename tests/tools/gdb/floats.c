/* A double that is kept in memory, and is added to in registers of floating point. */
#include <bsp.h>
#include <stdio.h>

volatile double total;

__attribute__((noinline)) double plus(double a, double b) {
    return a + b;
}

int main(void) {
    bsp_begin(bsp_nprocs());
    for (int i = 1; i <= 3; i++)
        total = plus(total, 0.5 * i);
    printf("total %d\n", (int)total);
    bsp_end();
}
