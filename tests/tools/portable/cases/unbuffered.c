/* Unbuffered calls of which BSPlib leaves open when they read and write, against other calls and against what ranks do themselves. */
#include "cases.h"

#define WORD ((int)sizeof(int))
#define PUT(to, from, into, at) bsp_put(to, from, into, (at)*WORD, WORD)
#define GET(from, of, at, into) bsp_get(from, of, (at)*WORD, into, WORD)
#define HPPUT(to, from, into, at) bsp_hpput(to, from, into, (at)*WORD, WORD)
#define HPGET(from, of, at, into) bsp_hpget(from, of, (at)*WORD, into, WORD)

static int seven = 7;

/* Against other calls of the superstep. */

CASE(hpget_of_a_put, EXPOSED)
{
    HPGET(next, b, 0, &c[0]); /* ! */
    PUT(next, &seven, b, 0); /* ! */
    bsp_sync();
    say(c[0]);
}

CASE(hpget_of_a_put_of_a_third, EXPOSED)
{
    if (me == 0)
        HPGET(1, b, 4, &c[0]); /* ! */
    if (me == 2)
        PUT(1, &seven, b, 4); /* ! */
    bsp_sync();
    say(c[0]);
}

CASE(hpget_of_a_get, EXPOSED)
{
    if (me == 0)
        HPGET(1, b, 0, &c[0]); /* ! */
    if (me == 1)
        GET(2, a, 1, &b[0]); /* ! */
    bsp_sync();
    say(c[0]);
}

CASE(hpget_of_an_hpput, EXPOSED)
{
    if (me == 0)
        HPGET(1, b, 0, &c[0]); /* ! */
    if (me == 2)
        HPPUT(1, &seven, b, 0); /* ! */
    bsp_sync();
    say(c[0]);
}

CASE(hpget_of_an_hpget, EXPOSED)
{
    if (me == 0)
        HPGET(1, b, 0, &c[0]); /* ! */
    if (me == 1)
        HPGET(2, a, 1, &b[0]); /* ! */
    bsp_sync();
    say(c[0]);
}

CASE(get_of_an_hpput, EXPOSED)
{
    if (me == 0)
        GET(1, b, 0, &c[0]); /* ! */
    if (me == 2)
        HPPUT(1, &seven, b, 0); /* ! */
    bsp_sync();
    say(c[0]);
}

CASE(get_of_an_hpget, EXPOSED)
{
    if (me == 0)
        GET(1, b, 0, &c[0]); /* ! */
    if (me == 1)
        HPGET(2, a, 1, &b[0]); /* ! */
    bsp_sync();
    say(c[0]);
}

CASE(hpput_of_what_a_put_writes, EXPOSED)
{
    if (me == 0)
        HPPUT(1, &b[2], c, 0); /* ! */
    if (me == 2)
        PUT(0, &seven, b, 2); /* ! */
    bsp_sync();
    say(c[0]);
}

CASE(hpput_of_what_a_get_brings, EXPOSED)
{
    HPPUT(next, &b[2], c, 0); /* ! */
    GET(last, a, 1, &b[2]); /* ! */
    bsp_sync();
    say(c[0]);
}

CASE(hpput_of_what_a_get_brings_before, EXPOSED)
{
    GET(last, a, 1, &b[2]); /* ! */
    HPPUT(next, &b[2], c, 0); /* ! */
    bsp_sync();
    say(c[0]);
}

CASE(hpput_of_what_an_hpget_brings, EXPOSED)
{
    HPGET(last, a, 1, &b[2]); /* ! */
    HPPUT(next, &b[2], c, 0); /* ! */
    bsp_sync();
    say(c[0]);
}

CASE(hpput_of_an_hpputs_target, EXPOSED)
{
    if (me == 0)
        HPPUT(1, &seven, b, 0); /* ! */
    if (me == 1)
        HPPUT(2, b, c, 0); /* ! */
    bsp_sync();
    say(c[0]);
}

CASE(hpput_chain, EXPOSED)
{
    HPPUT(next, &a[0], a, 0); /* ! */
    bsp_sync();
    say(a[0]);
}

CASE(hpput_to_oneself_forward, EXPOSED)
{
    bsp_hpput(me, a, a, WORD, 4 * WORD); /* ! */
    bsp_sync();
    say(weighed(a, 6));
}

CASE(hpput_to_oneself_backward, EXPOSED)
{
    bsp_hpput(me, a + 1, a, 0, 4 * WORD); /* ! */
    bsp_sync();
    say(weighed(a, 6));
}

CASE(hpget_from_oneself, EXPOSED)
{
    bsp_hpget(me, a, 0, a + 2, 4 * WORD); /* ! */
    bsp_sync();
    say(weighed(a, 8));
}

CASE(put_of_an_hpputs_target, EXPOSED)
{
    if (me == 0)
        HPPUT(1, &seven, b, 0); /* ! */
    if (me == 1)
        PUT(2, b, c, 0); /* ! */
    bsp_sync();
    say(c[0]);
}

CASE(put_of_an_hpgets_target, EXPOSED)
{
    HPGET(next, a, 1, &b[0]); /* ! */
    PUT(next, b, c, 0); /* ! */
    bsp_sync();
    say(c[0]);
}

CASE(sent_while_hpput, EXPOSED)
{
    int got = -1;
    if (me == 0)
        HPPUT(1, &seven, b, 0); /* ! */
    if (me == 1)
        bsp_send(2, NULL, b, WORD); /* ! */
    bsp_sync();
    if (me == 2)
        bsp_move(&got, WORD);
    say(got);
}

CASE(one_byte_in_common, EXPOSED)
{
    bsp_hpget(next, b, 0, c, 7); /* ! */
    bsp_put(next, &seven, b, 6, 1); /* ! */
    bsp_sync();
    say(c[1]);
}

CASE(late_exposed, EXPOSED)
{
    int i;
    for (i = 0; i < 70; i++) {
        HPPUT(next, &me, sink, 0);
        bsp_sync();
    }
    HPGET(next, b, 0, &c[0]); /* ! */
    PUT(next, &seven, b, 0); /* ! */
    bsp_sync();
    say(c[0]);
}

CASE(behind_a_put_of_the_same_line, EXPOSED)
{
    int i;
    for (i = 0; i < 3; i++) {
        HPGET(next, b, i, &c[i]); /* ! */
        if (i > 0)
            PUT(next, &seven, b, i); /* ! */
    }
    bsp_sync();
    say(weighed(c, 3));
}

CASE(by_another_name, EXPOSED)
{
    bsp_push_reg(&b[4], 4 * WORD);
    bsp_sync();
    if (me == 0)
        HPGET(1, b, 5, &c[0]); /* ! */
    if (me == 2)
        PUT(1, &seven, &b[4], 1); /* ! */
    bsp_sync();
    say(c[0]);
}

CASE(direct_get_of_an_hpput, EXPOSED)
{
    int got;
    if (me == 0)
        HPPUT(1, &seven, b, 0); /* ! */
    bsp_direct_get(me, b, 0, &got, WORD); /* ! */
    bsp_sync();
    say(me == 1 ? got : 0);
}

/* hpget as the machine has it, which the library does not know of. */
static void machine_hpget(int pid, const int *from, int at, int *into)
{
    register long a0 __asm__("a0") = pid, a2 __asm__("a2") = at * WORD, a4 __asm__("a4") = WORD, a7 __asm__("a7") = 10;
    register const int *a1 __asm__("a1") = from;
    register int *a3 __asm__("a3") = into;
    __asm__ volatile("ecall" : "+r"(a0) : "r"(a1), "r"(a2), "r"(a3), "r"(a4), "r"(a7) : "memory");
}

CASE(hpget_without_the_library, EXPOSED)
{
    machine_hpget(next, b, 0, &c[0]); /* ! */
    PUT(next, &seven, b, 0); /* ! */
    bsp_sync();
    say(c[0]);
}

CASE(hpget_without_the_library_beside, INNOCENT)
{
    machine_hpget(next, b, 0, &c[0]);
    PUT(next, &seven, b, 1);
    bsp_sync();
    say(c[0]);
}

/* Against what the ranks themselves write and read. */

CASE(source_used_again, TIMES)
{
    int i, buffer;
    for (i = 0; i < all; i++) {
        buffer = 10 * me + i; /* ! */
        HPPUT(i, &buffer, b, me); /* ! */
    }
    bsp_sync();
    say(weighed(b, 3));
}

CASE(target_written_by_its_rank, TIMES)
{
    if (me == 0)
        HPPUT(1, &seven, b, 0); /* ! */
    if (me == 1)
        b[0] = 3; /* ! */
    bsp_sync();
    say(b[0]);
}

CASE(source_written_by_its_rank, TIMES)
{
    if (me == 0)
        HPGET(1, b, 0, &c[0]); /* ! */
    if (me == 1)
        b[0] = 3; /* ! */
    bsp_sync();
    say(c[0]);
}

CASE(target_read_before_the_end, TIMES)
{
    int before;
    HPGET(next, a, 1, &b[0]); /* ! */
    before = b[0];
    bsp_sync();
    say(before + b[0]);
}

CASE(target_written_behind_the_call, TIMES)
{
    HPGET(next, a, 1, &b[0]); /* ! */
    b[0] = 5;
    bsp_sync();
    say(b[0]);
}

CASE(own_target_read, TIMES)
{
    HPPUT(me, &seven, b, 0); /* ! */
    say(b[0]);
    bsp_sync();
}

CASE(source_changed_late, TIMES)
{
    int i;
    for (i = 0; i < 70; i++) {
        HPPUT(next, &me, sink, 0);
        bsp_sync();
    }
    b[1] = 1;
    HPPUT(next, &b[1], c, 0); /* ! */
    b[1] = 2; /* ! */
    bsp_sync();
    say(c[0]);
}

CASE(target_written_late, TIMES)
{
    int i;
    for (i = 0; i < 70; i++) {
        HPPUT(next, &me, sink, 0);
        bsp_sync();
    }
    if (me == 0)
        HPPUT(1, &seven, b, 0); /* ! */
    if (me == 1)
        b[0] = 3; /* ! */
    bsp_sync();
    say(b[0]);
}

/* What leaves the bytes as they were. */

CASE(target_zeroed_that_is_zero, TIMES)
{
    if (me == 0)
        HPPUT(1, &seven, b, 0); /* ! */
    if (me == 1)
        memset(b, 0, sizeof b); /* ! */
    bsp_sync();
    say(b[0]);
}

CASE(target_zeroed_by_a_loop, TIMES)
{
    int i;
    HPPUT(next, &seven, b, me); /* ! */
    for (i = 0; i < all; i++)
        b[i] = 0; /* ! */
    bsp_sync();
    say(weighed(b, 3));
}

static void use(int *value)
{
    *(volatile int *)value += 1;
}

CASE(target_as_scratch, TIMES)
{
    int kept = b[0];
    if (me == 0)
        HPPUT(1, &seven, b, 0); /* ! */
    if (me == 1)
        b[0] = 4; /* ! */
    use(&b[4]);
    b[0] = kept;
    bsp_sync();
    say(b[0]);
}

CASE(source_change_undone, TIMES)
{
    HPPUT(next, &a[1], b, 0); /* ! */
    a[1] += 5; /* ! */
    use(&a[2]);
    a[1] -= 5;
    bsp_sync();
    say(b[0]);
}

CASE(got_source_change_undone, TIMES)
{
    if (me == 0)
        HPGET(1, a, 1, &b[0]); /* ! */
    if (me == 1) {
        a[1] = 5; /* ! */
        use(&a[2]);
        a[1] = 101;
    }
    bsp_sync();
    say(b[0]);
}

CASE(own_target_written_with_what_comes, TIMES)
{
    HPGET(next, a, 1, &b[0]); /* ! */
    b[0] = 100 * next + 1; /* ! */
    bsp_sync();
    say(b[0]);
}

CASE(target_read_by_its_rank, TIMES)
{
    if (me == 0)
        HPPUT(1, &seven, b, 0); /* ! */
    if (me == 1)
        say(b[0]); /* ! */
    bsp_sync();
}

CASE(message_moved_into_a_target, TIMES)
{
    bsp_send(next, NULL, &b[4], WORD);
    bsp_sync();
    HPPUT(next, &seven, b, 0); /* ! */
    bsp_move(b, WORD); /* ! */
    bsp_sync();
    say(b[0]);
}

CASE(copied_over_a_target, TIMES)
{
    if (me == 0)
        HPPUT(1, &seven, b, 2); /* ! */
    if (me == 1)
        memcpy(b, c, 4 * WORD); /* ! */
    bsp_sync();
    say(b[2]);
}

CASE(one_byte_of_a_target, TIMES)
{
    if (me == 0)
        bsp_hpput(1, a, b, 3, 6); /* ! */
    if (me == 1)
        ((char *)b)[8] = 0; /* ! */
    bsp_sync();
    say(b[1]);
}

/* What looks like it. */

CASE(hpput_ring, INNOCENT)
{
    HPPUT(next, &a[0], b, 0);
    bsp_sync();
    say(b[0]);
}

CASE(hpget_ring, INNOCENT)
{
    HPGET(next, a, 0, &b[0]);
    bsp_sync();
    say(b[0]);
}

CASE(double_buffer, INNOCENT)
{
    int i, *from = a, *to = b, *other;
    for (i = 0; i < 4; i++) {
        bsp_hpput(next, from, to, 0, 8 * WORD);
        bsp_sync();
        other = from, from = to, to = other;
    }
    say(weighed(from, 8));
}

CASE(hpget_and_put_side_by_side, INNOCENT)
{
    HPGET(next, b, 0, &c[0]);
    PUT(next, &seven, b, 1);
    bsp_sync();
    say(b[1] + c[0]);
}

CASE(get_of_a_put, INNOCENT)
{
    GET(next, b, 0, &c[0]);
    PUT(next, &seven, b, 0);
    bsp_sync();
    say(b[0] + c[0]);
}

CASE(put_of_what_a_put_writes, INNOCENT)
{
    PUT(next, &a[0], a, 0);
    bsp_sync();
    say(a[0]);
}

CASE(put_before_the_hpget, INNOCENT)
{
    PUT(next, b, c, 0);
    HPGET(next, a, 1, &b[0]);
    bsp_sync();
    say(b[0] + c[0]);
}

CASE(put_before_an_hpput_to_oneself, INNOCENT)
{
    PUT(next, b, c, 0);
    HPPUT(me, &seven, b, 0);
    bsp_sync();
    say(b[0] + c[0]);
}

CASE(two_readers, INNOCENT)
{
    HPGET(0, a, 1, &b[0]);
    GET(0, a, 1, &b[1]);
    if (me == 0)
        HPPUT(1, &a[1], c, 0);
    bsp_sync();
    say(b[0] + b[1] + c[0]);
}

CASE(hpput_one_byte_beside, INNOCENT)
{
    bsp_hpget(next, b, 0, c, 6);
    bsp_put(next, &seven, b, 6, 1);
    bsp_sync();
    say(c[0]);
}

CASE(in_the_next_superstep, INNOCENT)
{
    HPGET(next, b, 0, &c[0]);
    bsp_sync();
    PUT(next, &seven, b, 0);
    bsp_sync();
    say(b[0] + c[0]);
}

CASE(hpput_to_oneself_apart, INNOCENT)
{
    bsp_hpput(me, a, b, 0, 4 * WORD);
    bsp_sync();
    say(weighed(b, 4));
}

CASE(hpput_to_itself_in_place, INNOCENT)
{
    HPPUT(me, &a[1], a, 1);
    bsp_sync();
    say(a[1]);
}

CASE(no_bytes_at_all, INNOCENT)
{
    bsp_hpput(next, a, b, 0, 0);
    bsp_put(next, &seven, a, 0, WORD);
    bsp_sync();
    say(a[0]);
}

CASE(source_changed_behind_the_sync, INNOCENT)
{
    int buffer = me;
    HPPUT(next, &buffer, b, 0);
    bsp_sync();
    buffer = 5;
    bsp_sync();
    say(b[0] + buffer);
}

CASE(source_written_before, INNOCENT)
{
    b[1] = 3;
    HPPUT(next, &b[1], c, 0);
    bsp_sync();
    say(c[0]);
}

CASE(target_written_before_the_superstep, INNOCENT)
{
    b[0] = 3;
    bsp_sync();
    HPPUT(next, &seven, b, 0);
    bsp_sync();
    say(b[0]);
}

CASE(source_only_read, INNOCENT)
{
    int sum = 0, i;
    bsp_hpput(next, a, b, 0, 4 * WORD);
    for (i = 0; i < 4; i++)
        sum += a[i];
    bsp_sync();
    say(sum + weighed(b, 4));
}

CASE(other_element_written, INNOCENT)
{
    HPPUT(next, &a[1], b, 0);
    a[2] = 9;
    b[1] = 4;
    bsp_sync();
    say(b[0] + b[1]);
}

CASE(popped_name, INNOCENT)
{
    bsp_push_reg(&b[4], 4 * WORD);
    bsp_sync();
    bsp_pop_reg(&b[4]);
    bsp_sync();
    HPGET(next, b, 5, &c[0]);
    PUT(next, &seven, b, 1);
    bsp_sync();
    say(b[1] + c[0]);
}

CASE(source_written_with_what_it_has, INNOCENT)
{
    HPPUT(next, &a[1], b, 0);
    a[1] = 100 * me + 1;
    bsp_sync();
    say(b[0]);
}

CASE(target_zeroed_before_the_call, INNOCENT)
{
    memset(b, 0, sizeof b);
    HPGET(next, a, 1, &b[0]);
    bsp_sync();
    say(b[0]);
}

CASE(beside_the_target, INNOCENT)
{
    HPPUT(next, &seven, b, 3);
    memset(b, 0, 3 * WORD);
    memset(b + 4, 0, 3 * WORD);
    bsp_sync();
    say(b[3]);
}

CASE(target_of_another_rank, INNOCENT)
{
    if (me == 0)
        HPPUT(1, &seven, b, 0);
    if (me == 2)
        b[0] = 0;
    bsp_sync();
    say(b[0]);
}

CASE(got_source_read, INNOCENT)
{
    int sum;
    HPGET(next, a, 1, &b[0]);
    sum = a[0] + a[1];
    bsp_sync();
    say(sum + b[0]);
}

CASE(scratch_behind_the_sync, INNOCENT)
{
    HPPUT(next, &seven, b, 0);
    bsp_sync();
    memset(b, 0, sizeof b);
    use(&b[0]);
    bsp_sync();
    say(b[0]);
}

CASE(buffers_in_turn, INNOCENT)
{
    int i, buffer[2];
    for (i = 0; i < 6; i++) {
        buffer[i % 2] = me + i;
        HPPUT(next, &buffer[i % 2], b, i);
        if (i % 2 == 1)
            bsp_sync();
    }
    bsp_sync();
    say(weighed(b, 6));
}
