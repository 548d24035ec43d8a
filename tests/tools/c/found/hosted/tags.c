/* Messages with a tag that is a structure, which are counted by their kinds. */
#include <bsp.h>
#include <stdio.h>
#include <stdlib.h>

typedef struct {
    int from;
    char kind;
} tag_t;

static int by_origin(const void *a, const void *b)
{
    return ((const tag_t *)a)->from - ((const tag_t *)b)->from;
}

int main(void)
{
    int size = sizeof(tag_t), count, bytes, status, i, t;
    double sum = 0, value;
    tag_t tag, tags[64];
    bsp_begin(bsp_nprocs());
    bsp_set_tagsize(&size);
    printf("the size before was %d\n", size);
    bsp_sync();
    for (t = 0; t < bsp_nprocs(); t++) {
        tag.from = bsp_pid();
        tag.kind = t % 2 ? 'o' : 'e';
        value = 1.5 * bsp_pid() + t;
        bsp_send(t, &tag, &value, sizeof value);
    }
    bsp_sync();
    bsp_qsize(&count, &bytes);
    printf("rank %d: %d messages, %d bytes\n", bsp_pid(), count, bytes);
    for (i = 0; i < count; i++) {
        bsp_get_tag(&status, &tags[i]);
        if (status != (int)sizeof value)
            bsp_abort("a message of %d bytes", status);
        bsp_move(&value, sizeof value);
        sum += value;
    }
    qsort(tags, count, sizeof *tags, by_origin);
    for (i = 0; i < count; i++)
        printf("%d%c ", tags[i].from, tags[i].kind);
    printf("sum %.1f\n", sum);
    bsp_end();
    return 0;
}
