/* Memory that was given no value, and other things that are C's, and such as look like it. */
#include "cases.h"

#include <malloc.h>

static int __attribute__((noinline)) unset_sum(const int *values)
{
    int seen[6], i, sum = 0;
    for (i = 0; i < 5; i++)
        seen[values[i] % 6] += 1;
    for (i = 0; i < 6; i++)
        sum += seen[i] * (i + 1);
    return sum;
}

CASE(unset_array, FRESH)
{
    say(unset_sum(a));
}

CASE(fresh_malloc, FRESH)
{
    int *place = malloc(40); /* ! */
    say(place[3]);
}

CASE(partly_set, FRESH)
{
    int *place = malloc(40), i; /* ! */
    for (i = 0; i < 9; i++)
        place[i] = i;
    say(weighed(place, 10));
}

CASE(put_of_fresh, FRESH)
{
    int *place = malloc(40); /* ! */
    bsp_put(next, place, b, 0, sizeof(int));
    bsp_sync();
    say(b[0]);
}

CASE(sent_fresh, FRESH)
{
    int *place = malloc(40); /* ! */
    bsp_send(next, NULL, place, sizeof(int));
    bsp_sync();
    bsp_move(&b[0], sizeof(int));
    say(b[0]);
}

CASE(text_without_end, FRESH)
{
    char *text = malloc(8); /* ! */
    memcpy(text, "abc", 3);
    say((int)strnlen(text, 8));
}

CASE(grown, FRESH)
{
    int *place = malloc(8); /* ! */
    place[0] = 1;
    say(place[0] + place[1]);
}

CASE(grown_where_it_is, FRESH)
{
    int *place = malloc(16);
    place[0] = 1;
    place = realloc(place, 400); /* ! */
    say(place[0] + place[50]);
}

CASE(grown_elsewhere, FRESH)
{
    int *place = malloc(16), *behind = malloc(16);
    behind[0] = place[0] = 1;
    place = realloc(place, 400); /* ! */
    say(behind[0] + place[0] + place[50]);
}

CASE(aligned, FRESH)
{
    void *place;
    if (posix_memalign(&place, 64, 400) == 0) /* ! */
        say(((int *)place)[0]);
}

/* What is fresh in memory of each function, of which some call others. */
CASE(of_each_function, FRESH)
{
    int *first = malloc(40); /* ! */
    int *grown = realloc(malloc(8), 40), *made = realloc(NULL, 40), *array = reallocarray(malloc(8), 10, 4), *page = valloc(40);
    int *at_64 = aligned_alloc(64, 40), *old = memalign(64, 40), *zeros = calloc(10, 4);
    void *other;
    if (posix_memalign(&other, 64, 40) == 0)
        printf("%x %x %x %x %x %x %x %x %x\n", first[0], grown[2], made[0], array[2], page[0], at_64[0], old[0], zeros[0], ((int *)other)[0]);
}

CASE(kept_by_realloc, INNOCENT)
{
    int *place = malloc(40), *behind;
    memcpy(place, a, 40);
    place = realloc(place, 200);
    behind = malloc(8);
    place = realloc(place, 1000);
    place = realloc(place, 44);
    place[10] = 7;
    place = realloc(place, 20000);
    say(weighed(place, 11) + (behind != NULL));
}

CASE(by_calloc, INNOCENT)
{
    int *place = calloc(10, 4);
    say(place[3]);
}

CASE(set_first, INNOCENT)
{
    int *place = malloc(40);
    memset(place, 0, 40);
    say(place[3]);
}

CASE(never_read, INNOCENT)
{
    int *place = malloc(40);
    place[2] = 7;
    say(place[2]);
}

CASE(static_array, INNOCENT)
{
    static int table[10];
    say(table[3]);
}

CASE(zeroed_array, INNOCENT)
{
    int seen[10] = {0};
    seen[a[1] % 10]++;
    say(weighed(seen, 10));
}

CASE(freed_and_had_again, INNOCENT)
{
    int *place = malloc(40);
    free(place);
    place = malloc(40);
    place[0] = 3;
    say(place[0]);
}

CASE(received_into_fresh, INNOCENT)
{
    int *place = malloc(40);
    bsp_get(next, a, 0, place, 40);
    bsp_sync();
    say(weighed(place, 10));
}

CASE(null_when_nothing, INNOCENT)
{
    void *place = malloc(1);
    say(place != NULL);
}

/* Addresses that other ranks use. */

CASE(address_of_a_local_sent, OTHER)
{
    int mine = 3, *theirs = &mine;
    bsp_put(next, &theirs, b, 0, sizeof theirs); /* ! */
    bsp_sync();
    memcpy(&theirs, b, sizeof theirs);
    say(*theirs);
}

CASE(address_of_the_heap_sent, OTHER)
{
    int *mine = malloc(sizeof *mine), *theirs;
    *mine = 7;
    bsp_send(next, NULL, &mine, sizeof mine); /* ! */
    bsp_sync();
    bsp_move(&theirs, sizeof theirs);
    say(*theirs);
}

CASE(address_of_zeros_sent, OTHER)
{
    int *mine = calloc(1, sizeof *mine), *theirs;
    *mine = 7;
    bsp_send(next, NULL, &mine, sizeof mine); /* ! */
    bsp_sync();
    bsp_move(&theirs, sizeof theirs);
    say(*theirs);
}

CASE(list_sent_as_it_is, OTHER)
{
    struct node {
        int value;
        struct node *next;
    } *first = malloc(sizeof *first), theirs;
    first->value = 5;
    first->next = malloc(sizeof *first);
    first->next->value = 6;
    bsp_send(next, NULL, first, sizeof *first); /* ! */
    bsp_sync();
    bsp_move(&theirs, sizeof theirs);
    say(theirs.next->value);
}

CASE(address_comes_back, INNOCENT)
{
    int mine = 3, *back = &mine;
    bsp_put(next, &back, b, 0, sizeof back);
    bsp_sync();
    bsp_put(last, b, c, 0, sizeof back);
    bsp_sync();
    memcpy(&back, c, sizeof back);
    say(*back);
}

CASE(registered_local, INNOCENT)
{
    int mine = me;
    bsp_push_reg(&mine, sizeof mine);
    bsp_sync();
    bsp_put(next, &me, &mine, 0, sizeof mine);
    bsp_sync();
    say(mine);
}

CASE(registered_heap, INNOCENT)
{
    int *mine = malloc(40 + 40 * (size_t)me);
    bsp_push_reg(mine, 40);
    bsp_sync();
    bsp_put(next, &me, mine, 0, sizeof *mine);
    bsp_sync();
    say(*mine);
}
