/* setjmp and longjmp. A call is numbers: how deep functions call one another before one goes back, to which of them, and with which
   value; then how often that is done again. What stands in registers of the functions that are left must be as it was. */
#include <setjmp.h>

#include "calls.h"

enum { DEEPEST = 40 };

static jmp_buf places[DEEPEST + 1];
static int deepest, target, value;
static volatile int turns;

__attribute__((noinline)) static double mixed(double left, int right)
{
    return left * 0.5 + right;
}

__attribute__((noinline)) static int descend(int depth, int first, double real)
{
    /* C keeps what has not changed since setjmp. */
    int second = first * 3 + depth, third = first ^ depth * 77, fourth = second - third, fifth = fourth * 5 + 1;
    double half = real / 2, more = mixed(real, depth), other = half + more, last = other * 1.25;
    volatile int counted = 0, below = 0;
    int came = setjmp(places[depth]);
    counted++;
    if (came != 0) {
        say_number(depth);
        say_number(came);
        say_number(counted);
        if (turns > 0) {
            turns--;
            longjmp(places[depth], came + 1);
        }
    } else if (depth == deepest)
        longjmp(places[target], value);
    else
        below = descend(depth + 1, first + 1, real + 0.5);
    say_number(second + third + fourth + fifth);
    say_real(half + more + other + last);
    return below + first + second + third + fourth + fifth;
}

int main(void)
{
    while (read_call()) {
        int first;
        deepest = (int)read_number();
        target = (int)read_number();
        value = (int)read_number();
        turns = (int)read_number();
        first = (int)read_number();
        say_number(descend(0, first, (double)read_number() / 8));
        end_call();
    }
    return 0;
}
