/* A broadcast in two phases: parts are sent out, and then each to all. */
#include <bsp.h>
#include <stdio.h>
#include <string.h>

#define N 26

int main(void)
{
    char text[N + 1];
    int p, s, part, begin, size, t;
    bsp_begin(bsp_nprocs());
    p = bsp_nprocs();
    s = bsp_pid();
    memset(text, 0, sizeof text);
    if (s == 0)
        strcpy(text, "abcdefghijklmnopqrstuvwxyz");
    bsp_push_reg(text, N);
    bsp_sync();
    part = (N + p - 1) / p;
    if (s == 0)
        for (t = 0; t < p; t++) {
            begin = t * part;
            size = begin + part > N ? N - begin : part;
            if (size > 0)
                bsp_put(t, text + begin, text, begin, size);
        }
    bsp_sync();
    begin = s * part;
    size = begin + part > N ? N - begin : part;
    for (t = 0; t < p && size > 0; t++)
        bsp_put(t, text + begin, text, begin, size);
    bsp_sync();
    printf("%d %s\n", s, text);
    bsp_end();
    return 0;
}
