/* One program for each value of MISTAKE, of the mistakes that are made with BSPlib. The line that bsprun has to name is marked. */
#include <bsp.h>
#include <stdio.h>
#include <stdlib.h>
#include <string.h>

int word, table[4] = {1, 2, 3, 4}, other[4];
char big[1 << 16];
int *volatile none = NULL;
volatile int below = -1;

static int deep(int n)
{
    volatile int room[400];
    room[n % 400] = n; /* 6 */
    return deep(n + 1) + room[n / 2 % 400];
}

static void swap_areas(void)
{
    if (bsp_pid() == 0) {
        bsp_push_reg(table, sizeof table);
        bsp_push_reg(other, sizeof other);
    } else {
        bsp_push_reg(other, sizeof other); /* 12 */
        bsp_push_reg(table, sizeof table);
    }
    bsp_sync();
}

int main(void)
{
    int s, p, i;
    bsp_begin(bsp_nprocs());
    s = bsp_pid();
    p = bsp_nprocs();
    if (MISTAKE == 1) {
        bsp_push_reg(&word, sizeof word);
        bsp_put((s + 1) % p, &s, &word, 0, sizeof s); /* 1 */
    } else if (MISTAKE == 2) {
        bsp_push_reg(table, sizeof table);
        bsp_sync();
        bsp_put(0, &s, table, 0, sizeof s);
        bsp_put((s + 1) % p, table, table, 3 * sizeof(int), 2 * sizeof(int)); /* 2 */
        bsp_sync();
    } else if (MISTAKE == 3) {
        bsp_push_reg(&word, sizeof word);
        if (s == 1)
            bsp_push_reg(table, sizeof table); /* 3 */
        bsp_sync();
    } else if (MISTAKE == 4) {
        bsp_send(s + 1, NULL, &s, sizeof s); /* 4 */
        bsp_sync();
    } else if (MISTAKE == 5) {
        bsp_sync();
        if (s == 0)
            bsp_sync(); /* 5 */
    } else if (MISTAKE == 6) {
        deep(1);
    } else if (MISTAKE == 7) {
        for (i = 0; none == NULL; word += i, i++) /* 7 */
            ;
    } else if (MISTAKE == 8) {
        *none = 5;
        bsp_sync(); /* 8 */
    } else if (MISTAKE == 9) {
        for (i = 0; i < 300; i++)
            bsp_send(0, NULL, big, sizeof big); /* 9 */
        bsp_sync();
    } else if (MISTAKE == 10) {
        table[below] = 7;
        bsp_sync(); /* 10 */
    } else if (MISTAKE == 11) {
        bsp_push_reg(&word, sizeof word);
        bsp_sync();
        bsp_put(0, &s, &word, 0, sizeof s); /* 11 */
        bsp_sync();
    } else if (MISTAKE == 12) {
        swap_areas();
    } else if (MISTAKE == 13) {
        bsp_push_reg(&word, sizeof word);
        bsp_sync();
        bsp_get(0, &word, 0, &i, sizeof i); /* 13 */
    } else if (MISTAKE == 14) {
        bsp_push_reg(table, sizeof table);
        bsp_sync();
        bsp_put(0, &s, &table[1], 0, sizeof s); /* 14 */
    } else if (MISTAKE == 15) {
        i = s + 1;
        bsp_set_tagsize(&i); /* 15 */
        bsp_sync();
    } else if (MISTAKE == 16) {
        bsp_push_reg(&word, sizeof word);
        bsp_sync();
        bsp_pop_reg(&word);
        bsp_sync();
        bsp_get(0, &word, 0, &i, sizeof i); /* 16 */
    }
    bsp_end();
    return 0;
}
