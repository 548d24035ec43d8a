/* bsp_hpput, bsp_hpget and bsp_hpmove. */
#include <bsp.h>
#include <stdio.h>

int main(void)
{
    double here[4], there[4];
    void *tag, *payload;
    int i, p, s, got, none = 0;
    bsp_begin(bsp_nprocs());
    p = bsp_nprocs();
    s = bsp_pid();
    for (i = 0; i < 4; i++)
        here[i] = s + i * 0.25, there[i] = -1;
    bsp_push_reg(there, sizeof there);
    bsp_push_reg(here, sizeof here);
    bsp_set_tagsize(&none);
    bsp_sync();
    bsp_hpput((s + 1) % p, here, there, 0, 2 * sizeof(double));
    bsp_sync();
    bsp_hpget((s + 1) % p, here, 2 * sizeof(double), there + 2, 2 * sizeof(double));
    bsp_send((s + p - 1) % p, NULL, &s, sizeof s);
    bsp_sync();
    got = bsp_hpmove(&tag, &payload);
    printf("%d: %.2f %.2f %.2f %.2f, %d bytes from %d, then %d\n", s, there[0], there[1], there[2], there[3], got, *(int *)payload,
        bsp_hpmove(&tag, &payload));
    bsp_end();
    return 0;
}
