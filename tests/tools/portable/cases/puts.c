/* Puts and gets of one superstep whose order BSPlib leaves open, and such as look like it. */
#include "cases.h"

#define PUT(to, from, into, at) bsp_put(to, from, into, (at) * (int)sizeof(int), sizeof(int))
#define GET(from, of, at, into) bsp_get(from, of, (at) * (int)sizeof(int), into, sizeof(int))

CASE(all_to_one, OTHER)
{
    PUT(0, &me, b, 0); /* ! */
    bsp_sync();
    if (me == 0)
        say(b[0]);
}

CASE(two_lines, OTHER)
{
    int one = 1, two = 2;
    if (me == 0)
        PUT(2, &one, b, 3); /* ! */
    if (me == 1)
        PUT(2, &two, b, 3); /* ! */
    bsp_sync();
    if (me == 2)
        say(b[3]);
}

CASE(one_rank_twice, OTHER)
{
    int one = 1, two = 2;
    PUT(next, &one, b, 0); /* ! */
    PUT(next, &two, b, 0); /* ! */
    bsp_sync();
    say(b[0]);
}

CASE(put_and_get, OTHER)
{
    int five = 5;
    if (me == 0)
        GET(1, a, 1, &b[2]); /* ! */
    if (me == 1)
        PUT(0, &five, b, 2); /* ! */
    bsp_sync();
    if (me == 0)
        say(b[2]);
}

CASE(two_gets, OTHER)
{
    GET(next, a, 1, &b[0]); /* ! */
    GET(last, a, 2, &b[0]); /* ! */
    bsp_sync();
    say(b[0]);
}

CASE(overlapping_rows, OTHER)
{
    bsp_put(0, a, b, me * (int)sizeof(int), 3 * sizeof(int)); /* ! */
    bsp_sync();
    if (me == 0)
        say(weighed(b, 5));
}

CASE(one_byte, OTHER)
{
    unsigned char mine[4] = {1, 2, 3, 4};
    mine[2] = (unsigned char)me;
    bsp_put(1, mine, b, 0, sizeof mine); /* ! */
    bsp_sync();
    if (me == 1)
        say(b[0]);
}

CASE(late_superstep, OTHER)
{
    int i;
    for (i = 0; i < 5; i++)
        bsp_sync();
    PUT(0, &me, b, 0); /* ! */
    bsp_sync();
    if (me == 0)
        say(b[0]);
}

CASE(read_much_later, OTHER)
{
    int i;
    PUT(0, &me, b, 0); /* ! */
    for (i = 0; i < 4; i++)
        bsp_sync();
    if (me == 0)
        say(b[0]);
}

CASE(read_by_get, OTHER)
{
    PUT(0, &me, b, 0); /* ! */
    bsp_sync();
    GET(0, b, 0, &c[0]);
    bsp_sync();
    say(c[0]);
}

CASE(sent_on, OTHER)
{
    PUT(1, &me, b, 0); /* ! */
    bsp_sync();
    if (me == 1)
        bsp_send(0, NULL, b, sizeof(int));
    bsp_sync();
    if (me == 0) {
        bsp_move(&c[0], sizeof(int));
        say(c[0]);
    }
}

CASE(decides_an_if, OTHER)
{
    PUT(0, &me, b, 0); /* ! */
    bsp_sync();
    if (me == 0)
        printf(b[0] == 2 ? "yes\n" : "no\n");
}

CASE(middle_of_three, OTHER)
{
    int value = me == 1 ? 7 : 3;
    PUT(0, &value, b, 0); /* ! */
    if (me == 2)
        PUT(0, &me, b, 0); /* ! */
    bsp_sync();
    if (me == 0)
        say(b[0]);
}

CASE(boundary_cells, OTHER)
{
    int mine[4] = {1, 2, 3, 4};
    mine[0] += me, mine[3] += 10 * me;
    bsp_put(0, mine, b, 3 * me * (int)sizeof(int), sizeof mine); /* ! */
    bsp_sync();
    if (me == 0)
        say(weighed(b, 10));
}

CASE(behind_a_dustbin, OTHER)
{
    PUT(0, &me, sink, 0);
    PUT(0, &me, b, 0); /* ! */
    bsp_sync();
    if (me == 0)
        say(b[0]);
}

CASE(two_pairs, OTHER)
{
    int more = me + 10;
    PUT(0, &me, b, 0); /* ! */
    PUT(0, &more, b, 1); /* ! */
    bsp_sync();
    if (me == 0)
        say(weighed(b, 2));
}

CASE(in_a_loop, OTHER)
{
    int i, sum = 0;
    for (i = 0; i < 6; i++) {
        int value = i * me;
        PUT(0, &value, b, 0); /* ! */
        bsp_sync();
        sum += b[0];
    }
    say(sum);
}

CASE(moved_area, OTHER)
{
    bsp_push_reg(&c[4], 8 * sizeof(int));
    bsp_sync();
    PUT(0, &me, &c[4], 2); /* ! */
    bsp_sync();
    if (me == 0)
        say(c[6]);
}

CASE(one_area_two_names, OTHER)
{
    int one = 1, two = 2;
    bsp_push_reg(&c[4], 8 * sizeof(int));
    bsp_sync();
    if (me == 1)
        PUT(0, &one, c, 5); /* ! */
    if (me == 2)
        PUT(0, &two, &c[4], 1); /* ! */
    bsp_sync();
    if (me == 0)
        say(c[5]);
}

CASE(dustbin, SAME)
{
    PUT(0, &me, sink, 0); /* ! */
    bsp_sync();
    if (me == 0)
        say(1);
}

CASE(overwritten, SAME)
{
    PUT(0, &me, b, 0); /* ! */
    bsp_sync();
    b[0] = 4;
    if (me == 0)
        say(b[0]);
}

CASE(overwritten_by_a_put, SAME)
{
    int four = 4;
    PUT(0, &me, b, 0); /* ! */
    bsp_sync();
    if (me == 1)
        PUT(0, &four, b, 0);
    bsp_sync();
    if (me == 0)
        say(b[0]);
}

CASE(padding, SAME)
{
    struct {
        char tag;
        int value;
    } mine;
    memset(&mine, me, sizeof mine);
    mine.tag = 'x', mine.value = 5;
    bsp_put(0, &mine, b, 0, sizeof mine); /* ! */
    bsp_sync();
    if (me == 0)
        say(b[1] + ((char *)b)[0]);
}

CASE(same_parity, SAME)
{
    int value = 2 * me;
    PUT(0, &value, b, 0); /* ! */
    bsp_sync();
    if (me == 0)
        say(b[0] % 2);
}

CASE(same_value, INNOCENT)
{
    int one = 1;
    PUT(0, &one, b, 0);
    bsp_sync();
    if (me == 0)
        say(b[0]);
}

CASE(side_by_side, INNOCENT)
{
    PUT(0, &me, b, me);
    bsp_sync();
    if (me == 0)
        say(weighed(b, 3));
}

CASE(same_bytes_of_words, INNOCENT)
{
    int value = 256 + 5;
    if (me == 0)
        bsp_put(0, &value, b, 0, 1);
    else
        PUT(0, &value, b, 0);
    bsp_sync();
    if (me == 0)
        say(b[0]);
}

CASE(twice_in_turn, INNOCENT)
{
    PUT(next, &me, b, 0);
    bsp_sync();
    PUT(next, &all, b, 0);
    bsp_sync();
    say(b[0]);
}

CASE(get_of_what_is_put, INNOCENT)
{
    GET(next, a, 0, &b[0]);
    PUT(next, &me, a, 0);
    bsp_sync();
    say(a[0] + b[0]);
}

CASE(swap, INNOCENT)
{
    GET(next, a, 1, &a[1]);
    bsp_sync();
    say(a[1]);
}

CASE(buffer_used_again, INNOCENT)
{
    int i, buffer;
    for (i = 0; i < all; i++) {
        buffer = 10 * me + i;
        PUT(i, &buffer, b, me);
    }
    bsp_sync();
    say(weighed(b, 3));
}

CASE(target_written_before, INNOCENT)
{
    b[0] = 9;
    PUT(next, &me, b, 0);
    b[0] = 8;
    bsp_sync();
    say(b[0]);
}

CASE(read_before_the_end, INNOCENT)
{
    int before;
    GET(next, a, 1, &b[0]);
    before = b[0];
    bsp_sync();
    say(before + b[0]);
}

CASE(no_bytes, INNOCENT)
{
    bsp_put(0, &me, b, 0, 0);
    bsp_get(0, a, 0, b, 0);
    bsp_sync();
    say(b[0]);
}

CASE(end_to_end, INNOCENT)
{
    bsp_put(0, a, b, 4 * me * (int)sizeof(int), 4 * sizeof(int));
    bsp_sync();
    if (me == 0)
        say(weighed(b, 12));
}

CASE(transposed, INNOCENT)
{
    int i;
    for (i = 0; i < all; i++)
        PUT(i, &a[i], b, me);
    bsp_sync();
    say(weighed(b, all));
}

CASE(one_writer_each_step, INNOCENT)
{
    int i;
    for (i = 0; i < all; i++) {
        if (i == me)
            PUT(0, &me, b, 0);
        bsp_sync();
    }
    if (me == 0)
        say(b[0]);
}
