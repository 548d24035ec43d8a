/* Two tables are joined by a key, whose rows are sent where its hash says. */
#include <bsp.h>
#include <stdio.h>
#include <stdlib.h>
#include <string.h>

typedef struct {
    int table, key;
    char text[12];
} row;

static int order(const void *a, const void *b)
{
    const row *x = a, *y = b;
    return x->key != y->key ? x->key - y->key : x->table != y->table ? x->table - y->table : strcmp(x->text, y->text);
}

int main(void)
{
    static row rows[64];
    int i, j, count, bytes, status;
    bsp_begin(bsp_nprocs());
    for (i = bsp_pid(); i < 16; i += bsp_nprocs()) {
        row left = {0, i * 3 % 11, ""}, right = {1, i * 5 % 13, ""};
        sprintf(left.text, "l%d", i);
        sprintf(right.text, "r%d", i);
        bsp_send(left.key % bsp_nprocs(), NULL, &left, sizeof left);
        bsp_send(right.key % bsp_nprocs(), NULL, &right, sizeof right);
    }
    bsp_sync();
    bsp_qsize(&count, &bytes);
    for (i = 0; i < count; i++) {
        bsp_get_tag(&status, NULL);
        bsp_move(&rows[i], status);
    }
    qsort(rows, (size_t)count, sizeof *rows, order);
    for (i = 0; i < count; i++)
        for (j = 0; j < count; j++)
            if (rows[i].table == 0 && rows[j].table == 1 && rows[i].key == rows[j].key)
                printf("%d %s %s\n", rows[i].key, rows[i].text, rows[j].text);
    bsp_end();
    return 0;
}
