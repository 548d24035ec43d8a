/* Each function of bsp.h, with what it does at its edges. */
#include <bsp.h>
#include <stdio.h>
#include <string.h>

enum { HALF = 400000 };

static int p, s;

static void memory(void)
{
    int area[4] = {-1, -1, -1, -1}, one = 100 + s, got[2] = {0, 0}, other = s;

    bsp_push_reg(area, sizeof area);
    bsp_push_reg(NULL, 0);
    bsp_sync();
    bsp_put((s + 1) % p, &one, area, 0, sizeof one);
    one = 0; /* the put has its bytes already */
    one = 200 + s;
    bsp_hpput((s + 1) % p, &one, area, 4, sizeof one);
    bsp_get((s + 1) % p, area, 8, &got[0], sizeof(int));
    bsp_hpget((s + 1) % p, area, 12, &got[1], sizeof(int));
    area[2] = 300 + s; /* the get reads at the end of the superstep */
    area[3] = 400 + s;
    bsp_pop_reg(NULL);
    bsp_sync();
    printf("%d: area %d %d got %d %d\n", s, area[0], area[1], got[0], got[1]);

    /* An area of a rank that registered none of it has no bytes; other ranks can be named by it. */
    bsp_push_reg(s == 0 ? &other : NULL, s == 0 ? (int)sizeof other : 0);
    bsp_pop_reg(area);
    bsp_sync();
    if (s == 0 && p == 1)
        bsp_put(0, &one, &other, 0, sizeof other);
    bsp_pop_reg(s == 0 ? &other : NULL);
    bsp_sync();
    printf("%d: other %d\n", s, other);
}

static void messages(void)
{
    char tag[12], payload[8];
    int size = 5, first, status, count, bytes;
    void *tag_at, *payload_at, *first_tag;

    bsp_set_tagsize(&size);
    first = size;
    bsp_sync();
    size = 3;
    bsp_set_tagsize(&size);
    printf("%d: the tag size was %d and then %d\n", s, first, size);
    bsp_send((s + 1) % p, "tag0", "payload", 8);
    bsp_send((s + 1) % p, "tag1", NULL, 0);
    bsp_send((s + 1) % p, "tag2", "cut short", 10);
    bsp_sync();

    bsp_qsize(&count, &bytes);
    bsp_qsize(&count, NULL);
    bsp_qsize(NULL, &bytes);
    printf("%d: %d messages of %d bytes", s, count, bytes);
    for (; count > 0; count--) {
        memset(payload, '?', sizeof payload);
        bsp_get_tag(&status, tag);
        bsp_move(payload, 4);
        printf(", %s %d %.4s", tag, status, payload);
    }
    bsp_get_tag(&status, tag);
    bsp_move(payload, sizeof payload);
    printf(", then %d\n", status);

    for (int i = 0; i < 3; i++)
        bsp_send(i % p, "hi", &i, i + 1);
    bsp_sync();
    bsp_qsize(&count, &bytes);
    first_tag = NULL;
    while ((status = bsp_hpmove(&tag_at, &payload_at)) >= 0) {
        if (first_tag == NULL)
            first_tag = tag_at;
        if ((size_t)payload_at % 8 != 0)
            bsp_abort("a payload is not aligned\n");
        printf("%d: %s %d %d\n", s, (char *)tag_at, status, *(char *)payload_at);
    }
    /* What was given stays until the end of the superstep. */
    if (first_tag != NULL)
        printf("%d: %s, of %d messages\n", s, (char *)first_tag, count);
    bsp_sync();
    printf("%d: %d left\n", s, bsp_hpmove(&tag_at, &payload_at));
}

/* A message is given out where there is no room for all that are left. */
static void large(void)
{
    static char half[HALF];
    void *tag_at, *payload_at;

    half[HALF - 1] = (char)(s + 1);
    for (int i = 0; i < 2; i++)
        bsp_send((s + 1) % p, "", half, HALF);
    bsp_sync();
    if (bsp_hpmove(&tag_at, &payload_at) != HALF || ((char *)payload_at)[HALF - 1] != (s + p - 1) % p + 1)
        bsp_abort("a large message was changed\n");
}

int main(void)
{
    bsp_begin(bsp_nprocs());
    p = bsp_nprocs();
    s = bsp_pid();
    memory();
    messages();
    large();
    bsp_end();
    return 0;
}
