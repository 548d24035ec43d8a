/* One program for each value of END: how a run ends, or is stopped. */
#include <bsp.h>
#include <stdio.h>
#include <stdlib.h>

static int deep(int n)
{
    volatile char room[1000];
    room[0] = (char)n;
    return deep(n + 1) + room[0];
}

static void (*volatile nothing)(void) = NULL;

int main(void)
{
    int size = -1, word = 0;
    (void)size;
    (void)word;
    (void)deep;
    (void)nothing;
    printf("begun\n");
#if END == 1
    return 3;
#elif END == 2
    bsp_begin(1);
#elif END == 3
    bsp_sync();
#elif END == 4
    bsp_begin(2);
#elif END == 5
    bsp_begin(2);
    if (bsp_pid() == 1)
        bsp_abort("rank %d gives up: %s\n", bsp_pid(), "no more");
    bsp_end();
#elif END == 6
    deep(1);
#elif END == 7
    bsp_begin(2);
    bsp_move(&word, -1);
#elif END == 8
    bsp_begin(2);
    bsp_send(0, NULL, &word, -1);
#elif END == 9
    bsp_begin(2);
    bsp_set_tagsize(&size);
#elif END == 10
    bsp_begin(2);
    bsp_send(2, NULL, &word, 4);
#elif END == 11
    bsp_begin(2);
    bsp_push_reg(&word, sizeof word);
    bsp_put(0, &word, &word, 0, 4);
#elif END == 12
    bsp_begin(2);
    bsp_push_reg(&word, sizeof word);
    bsp_sync();
    bsp_put(0, &word, &word, 1, 4);
    bsp_sync();
#elif END == 13
    bsp_begin(2);
    bsp_begin(2);
#elif END == 14
    abort();
#elif END == 15
    bsp_begin(2);
    if (bsp_pid() == 0)
        bsp_sync();
    bsp_end();
#elif END == 16
    return bsp_time() != 0;
#elif END == 17
    bsp_begin(2);
    bsp_push_reg(&word, sizeof word);
    bsp_sync();
    bsp_put(0, &word, &word, -1, 4);
    bsp_sync();
#elif END == 18
    bsp_begin(2);
    if (bsp_pid() == 0)
        bsp_push_reg(&word, sizeof word);
    bsp_sync();
#elif END == 19
    bsp_begin(2);
    size = bsp_pid();
    bsp_set_tagsize(&size);
    bsp_sync();
#elif END == 20
    nothing();
#elif END == 21
    while (!nothing)
        word++;
#endif
    return 0;
}
