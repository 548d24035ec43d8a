/* The first message and the last one are told from the rest, whichever of them comes first. */
#include <bsp.h>
#include <stdio.h>

int main(void)
{
    int s, i, count, bytes, value, ends = 0;
    bsp_begin(bsp_nprocs());
    s = bsp_pid();
    bsp_hpsend(0, NULL, &s, sizeof s); /* here */
    bsp_sync();
    bsp_qsize(&count, &bytes);
    for (i = 0; i < count; i++) {
        bsp_move(&value, sizeof value); /* and here */
        if (i == 0 || i == count - 1)
            ends += value;
    }
    if (s == 0)
        printf("%d\n", ends);
    bsp_end();
    return 0;
}
