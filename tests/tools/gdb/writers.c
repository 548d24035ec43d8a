/* What tests/tools/gdb/asked.py looks at: bytes that are written in each way that there is. A mark at the end of a line is its name there. */
#include <bsp.h>
#include <string.h>

static int first, again, both, meeting, got, moved, status, tag, messages, bytes, replaced = 3, elsewhere, here, fresh, told, constant = 7;
static int numbers[4];
static char copied[8];
static volatile int rest;

static void copy(const char *text)
{
    memcpy(copied, text, sizeof copied); /* copied */
}

static void put(int to, int *from, int *at)
{
    bsp_put(to, from, at, 0, sizeof(int)); /* put */
}

int main(void)
{
    int s, size = sizeof(int), mine;

    bsp_begin(bsp_nprocs());
    s = bsp_pid();
    mine = 100 + s;
    first = 1;
    first = 2; /* first */
    again = 5;
    bsp_push_reg(&both, sizeof both);
    bsp_push_reg(&meeting, sizeof meeting);
    bsp_push_reg(s == 0 ? &here : &elsewhere, sizeof(int));
    bsp_push_reg(numbers, sizeof numbers);
    replaced = size;
    bsp_set_tagsize(&replaced); /* tagsize */
    bsp_sync();
    again = 5; /* again */
    both = 8;
    meeting = 9;
    if (s == 2) {
        put(0, &mine, &both);
        bsp_put(0, &mine, &elsewhere, 0, sizeof(int)); /* elsewhere */
    }
    bsp_hpput(0, &mine, &meeting, 0, sizeof(int)); /* meeting */
    bsp_get(1, numbers, 4, &meeting, sizeof(int));
    bsp_hpget(1, numbers, 0, &got, sizeof(int)); /* got */
    tag = s;
    bsp_send(0, &tag, &mine, sizeof(int)); /* sent */
    bsp_sync();
    bsp_qsize(&messages, &bytes); /* qsize */
    for (int i = 0; i < 2 && s == 0; i++) {
        bsp_get_tag(&status, &tag); /* tag */
        bsp_move(&moved, sizeof moved); /* moved */
    }
    ((char *)&both)[1] = 0; /* byte */
    if (s == 0)
        copy("of bytes");
    for (int i = 0; i < REST; i++)
        rest++; /* rest */
    for (int i = 0; i < 40; i++)
        bsp_sync();
    told = 1; /* told */
    bsp_end();
    return told - 1 + fresh + constant - 7;
}
