/* Messages whose order BSPlib leaves open, and such as look like it. */
#include "cases.h"

static int count_of(void)
{
    int count, bytes;
    bsp_qsize(&count, &bytes);
    return count;
}

static void send(int to, int value)
{
    bsp_send(to, NULL, &value, sizeof value);
}

static int take(void)
{
    int value = -1;
    bsp_move(&value, sizeof value);
    return value;
}

CASE(first_wins, OTHER)
{
    bsp_send(0, NULL, &me, sizeof me); /* ! */
    bsp_sync();
    if (me == 0) {
        bsp_move(&b[0], sizeof(int)); /* ! */
        say(b[0]);
    }
}

CASE(last_wins, OTHER)
{
    bsp_send(0, NULL, &me, sizeof me); /* ! */
    bsp_sync();
    while (me == 0 && count_of() > 0)
        bsp_move(&b[0], sizeof(int)); /* ! */
    if (me == 0)
        say(b[0]);
}

CASE(in_order_of_arrival, OTHER)
{
    int i;
    bsp_send(0, NULL, &me, sizeof me); /* ! */
    bsp_sync();
    for (i = 0; me == 0 && i < all; i++)
        bsp_move(&b[i], sizeof(int)); /* ! */
    say(weighed(b, all));
}

CASE(from_one_rank, OTHER)
{
    int i;
    for (i = 0; i < 3; i++)
        bsp_send(next, NULL, &i, sizeof i); /* ! */
    bsp_sync();
    for (i = 0; i < 3; i++)
        bsp_move(&b[i], sizeof(int)); /* ! */
    say(weighed(b, 3));
}

CASE(middle_one, OTHER)
{
    bsp_send(0, NULL, &me, sizeof me); /* ! */
    bsp_sync();
    if (me == 0) {
        take();
        bsp_move(&b[0], sizeof(int));
        say(b[0]);
    }
}

CASE(second_of_four, OTHER)
{
    int i;
    for (i = 0; me == 0 && i < 4; i++)
        bsp_send(1, NULL, &i, sizeof i); /* ! */
    bsp_sync();
    if (me == 1) {
        take();
        say(take());
    }
}

CASE(one_order_of_24, OTHER)
{
    int i, number = 0;
    for (i = 0; me == 0 && i < 4; i++)
        bsp_send(1, NULL, &i, sizeof i); /* ! */
    bsp_sync();
    for (i = 0; me == 1 && i < 4; i++)
        number = 10 * number + take();
    if (me == 1)
        say(number == 1203);
}

CASE(sum_of_doubles, OTHER)
{
    double value = me == 0 ? 1.0 : me == 1 ? 1e17 : -1e17, sum = 0;
    int i;
    bsp_send(0, NULL, &value, sizeof value); /* ! */
    bsp_sync();
    for (i = 0; me == 0 && i < all; i++) {
        bsp_move(&value, sizeof value); /* ! */
        sum += value;
    }
    if (me == 0)
        printf("%.1f\n", sum);
}

CASE(by_hpmove, OTHER)
{
    void *tag, *payload;
    bsp_hpsend(0, NULL, &me, sizeof me); /* ! */
    bsp_sync();
    if (me == 0 && bsp_hpmove(&tag, &payload) >= 0) /* ! */
        say(*(int *)payload);
}

CASE(by_tag, OTHER)
{
    int size = sizeof(int), status, tag;
    bsp_set_tagsize(&size);
    bsp_sync();
    bsp_send(0, &me, &me, sizeof me); /* ! */
    bsp_sync();
    if (me == 0) {
        bsp_get_tag(&status, &tag);
        say(tag);
    }
}

CASE(longest_first, OTHER)
{
    int status, tag;
    bsp_send(0, NULL, a, (1 + me) * (int)sizeof(int)); /* ! */
    bsp_sync();
    if (me == 0) {
        bsp_get_tag(&status, &tag);
        say(status);
    }
}

CASE(contested_in_other_orders, CONTESTED)
{
    int i, five = 5, zero = 0;
    send(0, me);
    bsp_sync();
    for (i = 0; me == 0 && i < all; i++)
        if (take() == 0 && i > 0) {
            bsp_put(1, &five, b, 0, sizeof five); /* ! */
            bsp_put(1, &zero, b, 0, sizeof zero); /* ! */
        }
    bsp_sync();
    if (me == 1)
        say(b[0]);
}

CASE(late_order, OTHER)
{
    int i;
    for (i = 0; i < 3; i++)
        bsp_sync();
    bsp_send(0, NULL, &me, sizeof me); /* ! */
    bsp_sync();
    if (me == 0)
        say(take());
}

CASE(empty_queue, EMPTY)
{
    send(next, me);
    bsp_sync();
    bsp_move(&b[0], sizeof(int));
    bsp_move(&b[1], sizeof(int)); /* ! */
    say(b[0] + b[1]);
}

CASE(empty_from_the_start, EMPTY)
{
    b[0] = 5;
    bsp_move(&b[0], sizeof(int)); /* ! */
    say(b[0]);
}

CASE(kept_pointer, POISON)
{
    void *tag, *payload = NULL;
    send(next, me);
    bsp_sync();
    bsp_hpmove(&tag, &payload); /* ! */
    bsp_sync();
    say(*(int *)payload);
}

CASE(kept_tag, POISON)
{
    int size = sizeof(int);
    void *tag, *payload;
    bsp_set_tagsize(&size);
    bsp_sync();
    bsp_send(next, &me, &me, sizeof me);
    bsp_sync();
    bsp_hpmove(&tag, &payload); /* ! */
    bsp_sync();
    say(*(int *)tag);
}

CASE(sum_of_numbers, INNOCENT)
{
    int sum = 0;
    send(0, me);
    bsp_sync();
    while (count_of() > 0)
        sum += take();
    say(sum);
}

CASE(greatest, INNOCENT)
{
    int most = 0, value;
    send(0, 7 * me % 5);
    bsp_sync();
    while (count_of() > 0)
        most = (value = take()) > most ? value : most;
    say(most);
}

CASE(sorted_behind, INNOCENT)
{
    int value;
    send(0, me);
    bsp_sync();
    while (count_of() > 0) {
        value = take();
        b[value] = value;
    }
    say(weighed(b, all));
}

CASE(placed_by_tag, INNOCENT)
{
    int size = sizeof(int), status, tag;
    bsp_set_tagsize(&size);
    bsp_sync();
    bsp_send(0, &me, &a[1], sizeof(int));
    bsp_sync();
    for (bsp_get_tag(&status, &tag); status >= 0; bsp_get_tag(&status, &tag))
        bsp_move(&b[tag], sizeof(int));
    say(weighed(b, all));
}

CASE(one_message, INNOCENT)
{
    send(next, me);
    bsp_sync();
    say(take());
}

CASE(alike, INNOCENT)
{
    send(0, 3);
    bsp_sync();
    if (me == 0)
        say(take());
}

CASE(only_counted, INNOCENT)
{
    send(0, me);
    bsp_sync();
    say(count_of());
}

CASE(exact_doubles, INNOCENT)
{
    double value = 1 << me, sum = 0;
    bsp_send(0, NULL, &value, sizeof value);
    bsp_sync();
    while (count_of() > 0) {
        bsp_move(&value, sizeof value);
        sum += value;
    }
    printf("%.1f\n", sum);
}

CASE(one_each_step, INNOCENT)
{
    int i;
    for (i = 0; i < all; i++) {
        if (i == me)
            send(0, me);
        bsp_sync();
        if (me == 0)
            say(take());
    }
}

CASE(never_taken, INNOCENT)
{
    send(0, me);
    bsp_sync();
    say(1);
}

CASE(until_empty, INNOCENT)
{
    int status, tag, sum = 0;
    send(0, me);
    bsp_sync();
    for (bsp_get_tag(&status, &tag); status >= 0; bsp_get_tag(&status, &tag))
        sum += take();
    say(sum);
}

CASE(pointer_at_once, INNOCENT)
{
    void *tag, *payload;
    send(next, me);
    bsp_sync();
    bsp_hpmove(&tag, &payload);
    say(*(int *)payload);
    bsp_sync();
    say(2);
}

CASE(copied_payload, INNOCENT)
{
    void *tag, *payload;
    int kept;
    send(next, me);
    bsp_sync();
    bsp_hpmove(&tag, &payload);
    kept = *(int *)payload;
    bsp_sync();
    say(kept);
}

CASE(histogram, INNOCENT)
{
    int i;
    for (i = 0; i < 8; i++)
        send(i % all, (me + i) % 4);
    bsp_sync();
    while (count_of() > 0)
        b[take()]++;
    say(weighed(b, 4));
}

/* Sums that few orders change: not those that are tried by chance. */
static const double tenths[9] = {4.0, 1.7, 2.3, 3.4, 0.2, 3.0, 1.6, 0.4, 1.1};

static int by_value(const void *one, const void *other)
{
    double x = *(const double *)one, y = *(const double *)other;
    return (x > y) - (x < y);
}

CASE(sum_that_few_orders_change, OTHER)
{
    double value, sum = 0;
    int i;
    for (i = 3 * me; i < 3 * me + 3; i++)
        bsp_send(0, NULL, &tenths[i], sizeof value); /* ! */
    bsp_sync();
    while (count_of() > 0) {
        bsp_move(&value, sizeof value); /* ! */
        sum += value;
    }
    printf("%.17g\n", sum);
}

CASE(sum_with_an_index, OTHER)
{
    struct {
        int index;
        double value;
    } it = {0, 0};
    double sum = 0;
    int i;
    for (i = 3 * me; i < 3 * me + 3; i++) {
        it.index = i, it.value = tenths[i];
        bsp_send(0, NULL, &it, sizeof it); /* ! */
    }
    bsp_sync();
    while (count_of() > 0) {
        bsp_move(&it, sizeof it); /* ! */
        sum += it.value;
    }
    printf("%.17g\n", sum);
}

CASE(sum_with_few_digits, SUMS)
{
    double value, sum = 0;
    int i;
    for (i = 3 * me; i < 3 * me + 3; i++)
        bsp_send(0, NULL, &tenths[i], sizeof value);
    bsp_sync();
    while (count_of() > 0) {
        bsp_move(&value, sizeof value);
        sum += value;
    }
    printf("%.3f\n", sum);
}

CASE(sum_in_order_of_value, INNOCENT)
{
    double values[9], sum = 0;
    int i, count = 0;
    for (i = 3 * me; i < 3 * me + 3; i++)
        bsp_send(0, NULL, &tenths[i], sizeof *values);
    bsp_sync();
    while (count_of() > 0)
        bsp_move(&values[count++], sizeof *values);
    qsort(values, (size_t)count, sizeof *values, by_value);
    for (i = 0; i < count; i++)
        sum += values[i];
    printf("%.17g\n", sum);
}

CASE(sum_that_begins_at_another_number, SUMS)
{
    double value, sum = 10 * me + 0.3;
    int i;
    for (i = 3 * me; i < 3 * me + 3; i++)
        bsp_send(0, NULL, &tenths[i], sizeof value);
    bsp_sync();
    while (count_of() > 0) {
        bsp_move(&value, sizeof value);
        sum += value;
    }
    printf("%.3f\n", sum);
}

CASE(sum_of_floats_with_few_digits, SUMS)
{
    float value, sum = 0;
    int i;
    for (i = 3 * me; i < 3 * me + 3; i++) {
        value = (float)tenths[i];
        bsp_send(0, NULL, &value, sizeof value);
    }
    bsp_sync();
    while (count_of() > 0) {
        bsp_move(&value, sizeof value);
        sum += value;
    }
    printf("%.3f\n", sum);
}

CASE(greatest_of_numbers, INNOCENT)
{
    double value, greatest = 0;
    int i;
    for (i = 3 * me; i < 3 * me + 3; i++)
        bsp_send(0, NULL, &tenths[i], sizeof value);
    bsp_sync();
    while (count_of() > 0) {
        bsp_move(&value, sizeof value);
        greatest = value > greatest ? value : greatest;
    }
    printf("%.17g\n", greatest);
}

CASE(numbers_in_order_of_their_senders, INNOCENT)
{
    struct {
        int index;
        double value;
    } it = {0, 0};
    double values[9], sum = 0;
    int i;
    for (i = 3 * me; i < 3 * me + 3; i++) {
        it.index = i, it.value = tenths[i];
        bsp_send(0, NULL, &it, sizeof it);
    }
    bsp_sync();
    while (count_of() > 0) {
        bsp_move(&it, sizeof it);
        values[it.index] = it.value;
    }
    for (i = 0; i < 9 && me == 0; i++)
        sum += values[i];
    printf("%.17g\n", sum);
}
