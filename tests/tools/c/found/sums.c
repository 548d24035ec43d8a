/* A reduction up a tree, by messages. */
#include <bsp.h>
#include <stdio.h>

int main(int argc, char **argv)
{
    bsp_begin(bsp_nprocs());
    bsp_pid_t s = bsp_pid();
    bsp_nprocs_t p = bsp_nprocs();
    int sum = 0, packets, i, part;
    bsp_size_t bytes;
    for (i = s; i < 1000; i += p)
        sum += i;
    for (int step = 1; step < p; step *= 2) {
        if (s % (2 * step) == step)
            bsp_send(s - step, NULL, &sum, sizeof(int));
        bsp_sync();
        bsp_qsize(&packets, &bytes);
        for (i = 0; i < packets; i++) {
            bsp_move(&part, sizeof(int));
            sum += part;
        }
    }
    if (s == 0)
        printf("the sum is %d\n", sum);
    bsp_end();
}
