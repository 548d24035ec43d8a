/* 2 to the power of 400 by ranks that each have some decimal digits, with carries from one to the next. */
#include <bsp.h>
#include <stdio.h>

#define EACH 32

int main(void)
{
    unsigned char digit[EACH] = {0};
    int carry_in, out;

    bsp_begin(4);
    int s = bsp_pid(), p = bsp_nprocs();
    bsp_push_reg(&carry_in, sizeof(int));
    bsp_sync();
    if (s == 0)
        digit[0] = 1;
    /* As a pipe: in step k rank s doubles for the (k - s)th time. */
    for (int k = 0; k < 400 + p - 1; k++) {
        int active = k >= s && k - s < 400;
        if (active) {
            out = s == 0 ? 0 : carry_in;
            for (int i = 0; i < EACH; i++) {
                int twice = 2 * digit[i] + out;
                digit[i] = twice % 10;
                out = twice / 10;
            }
            if (s + 1 < p)
                bsp_put(s + 1, &out, &carry_in, 0, sizeof(int));
        }
        bsp_sync();
    }
    for (int i = EACH; i-- > 0;)
        putchar('0' + digit[i]);
    putchar('\n');
    bsp_end();
    return 0;
}
