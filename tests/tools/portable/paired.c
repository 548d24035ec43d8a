/* Two messages of each rank, of which the receiver takes the second one for the value, and no tag tells which is which. */
#include <bsp.h>
#include <stdio.h>

static int number, value;

int main(void)
{
    int s, i;
    void *tag, *payload;
    bsp_begin(bsp_nprocs());
    s = bsp_pid();
    for (i = 0; i < 3; i++) {
        number = i;
        value = 10 * i + s;
        bsp_send((s + 1) % bsp_nprocs(), NULL, &number, sizeof number); /* here */
        bsp_send((s + 1) % bsp_nprocs(), NULL, &value, sizeof value); /* and here */
        bsp_sync();
    }
    bsp_hpmove(&tag, &payload);
    bsp_hpmove(&tag, &payload);
    printf("%d\n", *(int *)payload);
    bsp_end();
    return 0;
}
