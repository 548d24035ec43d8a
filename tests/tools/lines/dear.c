/* A program whose costs are known: rank 1 adds most, at one line; rank 0 puts to all others, at one line; a function is called from one
   line, one from several, one by a pointer, and one calls itself. */
#include <bsp.h>
#include <stdio.h>
#include <stdlib.h>

#define ROUNDS 4000
#define COUNT 8

static volatile int sum;
static int word;

static int compare(const void *left, const void *right)
{
    return *(const int *)left - *(const int *)right;
}

static __attribute__((noinline)) void add(int rounds)
{
    for (int i = 0; i < rounds; i++)
        sum += i; /* the dear line */
}

static __attribute__((noinline)) int twice(int number)
{
    return 2 * number + sum;
}

static __attribute__((noinline)) int fib(int n)
{
    return n < 2 ? n : fib(n - 1) + fib(n - 2);
}

int main(void)
{
    bsp_begin(bsp_nprocs());
    int p = bsp_nprocs(), s = bsp_pid(), numbers[COUNT];
    bsp_push_reg(&word, sizeof word);
    bsp_sync();
    add(s == 1 ? ROUNDS : 10); /* the only call */
    if (s == 0)
        for (int t = 1; t < p; t++)
            bsp_put(t, &s, &word, 0, sizeof word); /* the put */
    bsp_sync();
    for (int i = 0; i < COUNT; i++)
        numbers[i] = twice(i * 5 % COUNT);
    if (s == 0)
        bsp_hpsend(1, NULL, &word, sizeof word); /* the message */
    qsort(numbers, COUNT, sizeof(int), compare);
    bsp_sync();
    printf("%d %d\n", fib(7), twice(s) + numbers[0]);
    bsp_end();
    return 0;
}
