/* Ackermann's function, which goes deep, and large arrays in functions. */
#include <bsp.h>
#include <stdio.h>

static int ackermann(int m, int n)
{
    return m == 0 ? n + 1 : n == 0 ? ackermann(m - 1, 1) : ackermann(m - 1, ackermann(m, n - 1));
}

static double norm(int n)
{
    double values[30000];
    double sum = 0;
    int i;
    for (i = 0; i < 30000; i++)
        values[i] = (i % n) * 0.5;
    for (i = 0; i < 30000; i++)
        sum += values[i] * values[i];
    return sum;
}

int main(void)
{
    bsp_begin(bsp_nprocs());
    printf("%d %.2f\n", ackermann(2, 300 + bsp_pid()), norm(7 + bsp_pid()));
    bsp_end();
    return 0;
}
