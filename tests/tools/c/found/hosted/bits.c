/* Bit fields, unions and structures as they lie in memory, sent as bytes. */
#include <bsp.h>
#include <stddef.h>
#include <stdio.h>
#include <string.h>

struct flags { unsigned kind : 3, level : 5, left : 8; int sign : 4; };
union word { float number; unsigned bits; unsigned char bytes[4]; };
struct packet { char name[5]; double value; short count; struct flags flags; };

int main(void)
{
    struct packet mine, others[8];
    union word word;

    bsp_begin(bsp_nprocs());
    int s = bsp_pid(), p = bsp_nprocs();
    memset(&mine, 0, sizeof mine);
    snprintf(mine.name, sizeof mine.name, "r%d", s);
    mine.value = s / 4.0 - 1;
    mine.count = (short)(40000 + s);
    mine.flags = (struct flags){.kind = s + 6, .level = 31 - s, .left = 200 + s, .sign = 7 + s};
    memset(others, 0, sizeof others);
    bsp_push_reg(others, sizeof others);
    bsp_sync();
    bsp_put(0, &mine, others, s * (int)sizeof mine, sizeof mine);
    bsp_sync();
    if (s == 0)
        for (int t = 0; t < p; t++)
            printf("%s %g %d: %u %u %u %d\n", others[t].name, others[t].value, others[t].count, others[t].flags.kind, others[t].flags.level,
                others[t].flags.left, others[t].flags.sign);
    word.number = -0.15625f * (s + 1);
    printf("%d: %08x, %02x%02x%02x%02x, at %d of %d\n", s, word.bits, word.bytes[3], word.bytes[2], word.bytes[1], word.bytes[0],
        (int)offsetof(struct packet, count), (int)sizeof(struct packet));
    bsp_end();
    return 0;
}
