/* Rounding modes and flags of fenv.h. A call is a script of steps: a mode is set, flags are raised and taken back, environments are kept
   and put back, and things are computed, with the mode and the flags behind each. */
#include <fenv.h>
#include <math.h>

#include "calls.h"

enum { KEPT = 3 };

static const int modes[] = {FE_TONEAREST, FE_DOWNWARD, FE_UPWARD, FE_TOWARDZERO, 77};
static const int flags[] = {FE_INVALID, FE_DIVBYZERO, FE_OVERFLOW, FE_UNDERFLOW, FE_INEXACT};
static fenv_t kept[KEPT];
static fexcept_t kept_flags[KEPT];

static int flags_of(int64_t number)
{
    int set = 0;
    for (int i = 0; i < 5; i++)
        set |= number >> i & 1 ? flags[i] : 0;
    return set;
}

static int number_of(int set)
{
    int number = 0;
    for (int i = 0; i < 5; i++)
        number |= set & flags[i] ? 1 << i : 0;
    return number;
}

static int64_t operand(char **at)
{
    int64_t number = 0;
    int is_negative = **at == '-';
    for (*at += is_negative; **at >= '0' && **at <= '9'; ++*at)
        number = 10 * number + **at - '0';
    *at += **at == ':';
    return is_negative ? -number : number;
}

static double real_operand(char **at)
{
    uint64_t bits = 0;
    double real;
    for (int i = 0; i < 16; i++)
        bits = 16 * bits + (uint64_t)value_of_figure(*(*at)++);
    *at += **at == ':';
    memcpy(&real, &bits, sizeof real);
    return real;
}

static void compute(char letter, char *at)
{
    volatile double left = real_operand(&at), right = real_operand(&at), real = 0;
    volatile float single = 0;
    switch (letter) {
    case '+':
        real = left + right;
        break;
    case '-':
        real = left - right;
        break;
    case '*':
        real = left * right;
        break;
    case '/':
        real = left / right;
        break;
    case 'q':
        real = sqrt(left);
        break;
    case 'f':
        single = (float)left;
        real = single;
        break;
    case 's':
        single = (float)left;
        single = single / (float)right;
        real = single;
        break;
    case 'n':
        real = nearbyint(left);
        break;
    case 'r':
        real = rint(left);
        break;
    case 'l':
        real = (double)(int)lrint(fmod(left, 1e9));
        break;
    case 'm':
        real = fma(left, right, left);
        break;
    default:
        real = left < right;
    }
    say_real(real);
}

static void make_step(char *step)
{
    char letter = *step++;
    int64_t first;
    if (strchr("+-*/qfsnrlm<", letter) != NULL) {
        compute(letter, step);
        return;
    }
    first = operand(&step);
    switch (letter) {
    case 'M':
        say_number(fesetround(modes[first]) != 0);
        break;
    case 'R':
        say_number(feraiseexcept(flags_of(first)));
        break;
    case 'C':
        say_number(feclearexcept(flags_of(first)));
        break;
    case 'T':
        say_number(number_of(fetestexcept(flags_of(first))));
        break;
    case 'G':
        say_number(fegetenv(&kept[first]));
        break;
    case 'S':
        say_number(fesetenv(&kept[first]));
        break;
    case 'H':
        say_number(feholdexcept(&kept[first]));
        break;
    case 'U':
        say_number(feupdateenv(&kept[first]));
        break;
    case 'K':
        say_number(fegetexceptflag(&kept_flags[first], FE_ALL_EXCEPT));
        break;
    case 'P':
        say_number(fesetexceptflag(&kept_flags[first], flags_of(operand(&step))));
        break;
    default:
        say_number(fesetenv(FE_DFL_ENV));
    }
}

int main(void)
{
    while (read_call()) {
        fesetenv(FE_DFL_ENV);
        for (int i = 0; i < KEPT; i++) {
            fegetenv(&kept[i]);
            fegetexceptflag(&kept_flags[i], FE_ALL_EXCEPT);
        }
        while (has_word()) {
            say(";");
            make_step(read_word());
            for (int i = 0; i < 4; i++)
                if (fegetround() == modes[i])
                    say_number(i);
            say_number(number_of(fetestexcept(FE_ALL_EXCEPT)));
        }
        fesetenv(FE_DFL_ENV);
        end_call();
    }
    return 0;
}
