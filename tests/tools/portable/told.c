/* Variables of several sizes and at several addresses, most of them 0 at the end, and in one of MANY more than a rank tells. */
#include <bsp.h>

static volatile char odd[7] = "abc";
static volatile short some[50];
static volatile int zeros[5000], beside;
static volatile double last[3];

int main(void)
{
    int i;
    bsp_begin(bsp_nprocs());
    for (i = 0; i < 50; i++)
        some[i] = (short)(i * bsp_pid());
    zeros[2500] = bsp_pid() + 1;
    odd[3] = (char)(odd[2] + 1);
    beside = -1;
    last[1] = 0.5;
#ifdef MANY
    for (i = 0; i < 5000; i++)
        zeros[i] = bsp_pid() + 1;
#endif
    bsp_end();
    return 0;
}
