/* A put, a get and a message from one rank to another, with the values that docs/tutorial/first-superstep.md has in its drawings. */
#include <bsp.h>
#include <stdio.h>

int x, tag, table[4], received;

/* Before each of the three, x, tag and table have their first values. */
static void fill(int s)
{
    x = s == 0 ? 7 : 5;
    tag = s == 0 ? 9 : 0;
    for (int i = 0; i < 4; i++)
        table[i] = s == 0 ? i + 1 : 10 * (i + 1);
}

int main(void)
{
    int s, size, tag_size = sizeof tag;

    bsp_begin(2);
    s = bsp_pid();
    fill(s);
    bsp_push_reg(table, sizeof table);
    bsp_set_tagsize(&tag_size);
    bsp_sync();

    if (s == 0)
        bsp_put(1, &x, table, 2 * sizeof(int), sizeof x);
    bsp_sync();
    if (s == 1)
        printf("put: the third word of the table of rank 1 is %d\n", table[2]);

    fill(s);
    if (s == 0)
        bsp_get(1, table, 2 * sizeof(int), &x, sizeof x);
    bsp_sync();
    if (s == 0)
        printf("get: x of rank 0 is %d\n", x);

    fill(s);
    if (s == 0)
        bsp_send(1, &tag, &x, sizeof x);
    bsp_sync();
    if (s == 1) {
        bsp_get_tag(&size, &tag);
        bsp_move(&received, sizeof received);
        printf("message: rank 1 has received %d with the tag %d\n", received, tag);
    }
    bsp_end();
    return 0;
}
