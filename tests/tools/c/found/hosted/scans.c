/* Prefix sums in three ways, over operators that are chosen by _Generic, with what C11 has. */
#include <stdalign.h>
#include <stdint.h>
#include <inttypes.h>
#include <stdio.h>
#include <stdlib.h>
#include <stdnoreturn.h>
#include <string.h>
#include <bsp.h>

#define SHOW(x) _Generic((x), int: show_int, double: show_double, int64_t: show_long, const char *: puts)(x)
#define COUNT(a) (sizeof(a) / sizeof((a)[0]))
static int show_int(int x) { return printf("int %d\n", x); }
static int show_double(double x) { return printf("double %g\n", x); }
static int show_long(int64_t x) { return printf("int64_t %" PRId64 "\n", x); }

_Static_assert(alignof(max_align_t) >= 8, "doubles can be anywhere that malloc gives");
static _Thread_local int calls;
typedef int64_t (*op_t)(int64_t, int64_t);
static int64_t add(int64_t a, int64_t b) { ++calls; return a + b; }
static int64_t max(int64_t a, int64_t b) { ++calls; return a > b ? a : b; }
static int64_t xor(int64_t a, int64_t b) { ++calls; return a ^ b; }

static alignas(64) int64_t got[64];

static int64_t doubling(int64_t mine, op_t op)
{
    int s = bsp_pid(), p = bsp_nprocs();
    for (int d = 1; d < p; d <<= 1) {
        if (s + d < p) bsp_put(s + d, &mine, got, 0, sizeof mine);
        bsp_sync();
        if (s >= d) mine = op(got[0], mine);
    }
    return mine;
}

static int64_t gathered(int64_t mine, op_t op)
{
    for (int t = bsp_pid(); t < bsp_nprocs(); t++) bsp_put(t, &mine, got, bsp_pid() * (int)sizeof mine, sizeof mine);
    bsp_sync();
    int64_t all = got[0];
    for (int t = 1; t <= bsp_pid(); t++) all = op(all, got[t]);
    return all;
}

static int64_t chain(int64_t mine, op_t op)
{
    for (int t = 0; t + 1 < bsp_nprocs(); t++) {
        if (bsp_pid() == t) bsp_put(t + 1, &mine, got, 0, sizeof mine);
        bsp_sync();
        if (bsp_pid() == t + 1) mine = op(got[0], mine);
    }
    return mine;
}

static noreturn void fail(const char *why) { bsp_abort("%s\n", why); abort(); }

int main(void)
{
    static const struct { const char *name; int64_t (*scan)(int64_t, op_t); } ways[] = {{"doubling", doubling}, {"gathered", gathered}, {"chain", chain}};
    static const op_t ops[] = {add, max, xor};
    bsp_begin(bsp_nprocs());
    bsp_push_reg(got, sizeof got);
    bsp_sync();
    for (size_t o = 0; o < COUNT(ops); o++) {
        int64_t first = 0;
        for (size_t w = 0; w < COUNT(ways); w++) {
            int64_t r = ways[w].scan((int64_t)1 << (10 * bsp_pid()) | 5, ops[o]);
            if (w == 0) first = r;
            else if (r != first) fail(ways[w].name);
        }
        SHOW(first);
    }
    SHOW(calls);
    SHOW(0.5 * calls);
    SHOW((const char *)"done");
    bsp_end();
}
