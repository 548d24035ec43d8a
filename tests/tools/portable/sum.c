/* A sum of doubles in the order in which they come. */
#include <bsp.h>
#include <stdio.h>

int main(void)
{
    int s, size;
    double part, sum = 0.0;
    bsp_begin(bsp_nprocs());
    s = bsp_pid();
    part = s == 0 ? 1e20 : s == 1 ? -1e20 : 3.0;
    bsp_sync();
    if (s < 3)
        bsp_send(0, NULL, &part, sizeof part); /* here */
    bsp_sync();
    for (bsp_get_tag(&size, NULL); size >= 0; bsp_get_tag(&size, NULL)) {
        bsp_move(&part, sizeof part);
        sum += part;
    }
    if (s == 0)
        printf("%g\n", sum);
    bsp_end();
    return 0;
}
