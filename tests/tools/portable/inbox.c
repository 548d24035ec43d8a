/* Messages lie in the order in which they come, which counts for nothing. */
#include <bsp.h>
#include <stdio.h>

static int inbox[64];

int main(void)
{
    int s, i, count, bytes, sum = 0;
    bsp_begin(bsp_nprocs());
    s = bsp_pid() + 1;
    bsp_send(0, NULL, &s, sizeof s);
    bsp_sync();
    bsp_qsize(&count, &bytes);
    for (i = 0; i < count; i++)
        bsp_move(&inbox[i], sizeof inbox[i]);
    for (i = 0; i < count; i++)
        sum += inbox[i];
    if (count > 0)
        printf("%d\n", sum);
    bsp_end();
    return 0;
}
