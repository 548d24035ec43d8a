/* The first message wins. */
#include <bsp.h>
#include <stdio.h>

int main(void)
{
    int s, winner, messages, bytes;
    bsp_begin(bsp_nprocs());
    s = bsp_pid();
    if (s > 0)
        bsp_send(0, NULL, &s, sizeof s); /* here */
    bsp_sync();
    bsp_qsize(&messages, &bytes);
    if (messages > 0) {
        bsp_move(&winner, sizeof winner); /* and here */
        printf("rank %d was first of %d\n", winner, messages);
    }
    bsp_end();
    return 0;
}
