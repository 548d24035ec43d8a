/* Messages that are one word each, and others of which some are longer, taken in each way that there is. The first one shows. */
#include <bsp.h>
#include <stdio.h>
#include <string.h>

enum { COUNT = 6 };
static const int SIZES[] = {8, 0, 4};
static int s, p;

/* Sends messages of one word, or of 8, 0 and 4 bytes in turn, which have as many bytes in all. */
static void send_all(int is_mixed)
{
    for (int i = 0; i < COUNT; i++) {
        int words[2] = {100 * s + i, 7000 + i}, size = is_mixed ? SIZES[i % 3] : 4;
        bsp_send((s + 1) % p, NULL, words, size); /* here */
    }
    bsp_sync();
}

static void take_all(void)
{
    int step, count, bytes, size, i;
    for (step = 0; bsp_qsize(&count, &bytes), bsp_get_tag(&size, NULL), size >= 0; step++) {
        char place[16];
        void *tag, *payload;
        memset(place, '.', sizeof place);
        if (step % 5 == 0)
            bsp_move(place + 1, 4); /* and here */
        else if (step % 5 == 1)
            bsp_move(place, 2);
        else if (step % 5 == 2)
            memcpy(place, (bsp_hpmove(&tag, &payload), payload), (size_t)size);
        else
            bsp_move(place, step % 5 == 3 ? 8 : 4);
        printf("%d/%d:%d:", count, bytes, size);
        for (i = 0; i < 9; i++)
            printf("%02x", place[i] & 255);
        printf(" ");
    }
    printf("%d/%d\n", count, bytes);
}

int main(void)
{
    bsp_begin(bsp_nprocs());
    s = bsp_pid();
    p = bsp_nprocs();
    for (int is_mixed = 0; is_mixed < 2; is_mixed++) {
        send_all(is_mixed);
        take_all();
        bsp_sync();
    }
    bsp_end();
    return 0;
}
