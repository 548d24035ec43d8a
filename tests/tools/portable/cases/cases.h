/* What the cases of this folder share. A file has many small programs, of which the first argument names one, so that it is compiled once.
   tests/tools/portable/run reads the lines that begin with CASE, and has the lines marked ! named by what is told of a guilty one. */
#include <bsp.h>
#include <stdio.h>
#include <stdlib.h>
#include <string.h>

/* A case: its name, and what is told of it, or INNOCENT. */
struct entry {
    const char *name;
    void (*run)(void);
};
#define CASE(name, told)                                                                                       \
    static void name(void);                                                                                    \
    static const struct entry entry_##name __attribute__((section("cases"), used)) = {#name, name};            \
    static void name(void)
extern const struct entry __start_cases[], __stop_cases[];

/* Registered at each rank. `a` begins as 100 times the rank and the index, the others are zeros. */
static int a[32], b[32], c[32], sink[8];
static int me, all, next, last;

static void say(int value)
{
    printf("%d\n", value);
}

/* The sum of what a rank has in the first elements of an array, by which one order is told from another. */
static int weighed(const int *values, int count)
{
    int i, sum = 0;
    for (i = 0; i < count; i++)
        sum += (i + 1) * values[i];
    return sum;
}

int main(int argc, char **argv)
{
    const struct entry *it;
    int i;
    bsp_begin(bsp_nprocs());
    me = bsp_pid(), all = bsp_nprocs(), next = (me + 1) % all, last = (me + all - 1) % all;
    for (i = 0; i < 32; i++)
        a[i] = 100 * me + i;
    bsp_push_reg(a, sizeof a);
    bsp_push_reg(b, sizeof b);
    bsp_push_reg(c, sizeof c);
    bsp_push_reg(sink, sizeof sink);
    bsp_sync();
    for (it = __start_cases; argc > 1 && it < __stop_cases; it++)
        if (strcmp(it->name, argv[1]) == 0)
            it->run();
    bsp_end();
    return 0;
}
