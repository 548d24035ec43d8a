/* The rounding modes of fenv.h, where the machine has them: what is not as it should be is told. Nodes without registers of floating point
   have one mode. */
#include <fenv.h>

#include "show.h"

#if !defined(__riscv) || defined(__riscv_flen)

static volatile double one = 1, three = 3, most = DBL_MAX, least = DBL_MIN, zero = 0, half = 0.5, result;
static volatile float single;
static volatile int word = 16777217;

static void expect(const char *what, double found, double wanted)
{
    if (found != wanted || !signbit(found) != !signbit(wanted))
        printf("%s: %a and not %a\n", what, found, wanted);
}

#define IN(mode, expression, wanted) \
    do { \
        if (fesetround(mode) || fegetround() != (mode)) \
            printf(#mode " is not set\n"); \
        result = (expression); \
        fesetround(FE_TONEAREST); \
        expect(#expression " in " #mode, result, wanted); \
    } while (0)
#define MODES(expression, nearest, toward, down, up) \
    do { \
        IN(FE_TONEAREST, expression, nearest); \
        IN(FE_TOWARDZERO, expression, toward); \
        IN(FE_DOWNWARD, expression, down); \
        IN(FE_UPWARD, expression, up); \
    } while (0)

static void quotients(void)
{
    double third = 0x1.5555555555555p-2, above = 0x1.5555555555556p-2;
    MODES(one / three, third, third, third, above);
    MODES(-one / three, -third, -third, -above, -third);
    MODES(one / -three * three, -1, -1 + 0x1p-53, -1 - 0x1p-52, -1 + 0x1p-53);
    MODES(most / half, INFINITY, DBL_MAX, DBL_MAX, INFINITY);
    MODES(-most / half, -INFINITY, -DBL_MAX, -INFINITY, -DBL_MAX);
}

static void others(void)
{
    MODES(one + least, 1, 1, 1, 1 + 0x1p-52);
    MODES(one - least, 1, 1 - 0x1p-53, 1 - 0x1p-53, 1);
    MODES(one - one, 0, 0, -0.0, 0);
    MODES(zero * -one, -0.0, -0.0, -0.0, -0.0);
    MODES(least * least, 0, 0, 0, 0x1p-1074);
    MODES(sqrt(three), 0x1.bb67ae8584caap+0, 0x1.bb67ae8584caap+0, 0x1.bb67ae8584caap+0, 0x1.bb67ae8584cabp+0);
    MODES(fma(three, -three, least), -9, -9 + 0x1p-49, -9, -9 + 0x1p-49);
    MODES((single = (float)(one / three)), 0x1.555556p-2f, 0x1.555554p-2f, 0x1.555554p-2f, 0x1.555556p-2f);
    MODES((single = (float)word), 16777216, 16777216, 16777216, 16777218);
    MODES(rint(2 + half), 2, 2, 2, 3);
    MODES(remainder(three, one), 0, 0, 0, 0);
    MODES(remainder(-three, one), -0.0, -0.0, -0.0, -0.0);
#ifdef __riscv /* glibc's is -0 */
    MODES(remainderf((float)three, (float)one), 0, 0, 0, 0);
#endif
    MODES(llrint(one / three), 0, 0, 0, 1);
    MODES(llrintf((float)(half / -three)), 0, 0, -1, 0);
#ifdef FE_TONEAREST_MM
    IN(FE_TONEAREST_MM, rint(2 + half), 3);
    IN(FE_TONEAREST_MM, one + 0x1p-53, 1 + 0x1p-52);
    IN(FE_TONEAREST_MM, one / three, 0x1.5555555555555p-2);
#endif
}

/* The sum of 1/i, each term and each sum rounded in the same mode. */
static double harmonic(int mode)
{
    volatile double sum = 0;
    fesetround(mode);
    for (int i = 1; i <= 1000; i++)
        sum = sum + one / i;
    fesetround(FE_TONEAREST);
    return sum;
}

static void bounds(void)
{
    double lower = harmonic(FE_DOWNWARD), upper = harmonic(FE_UPWARD), nearest = harmonic(FE_TONEAREST);
    expect("the sum of 1/i, rounded down", lower, 0x1.df11f45f4e464p+2);
    expect("the sum of 1/i, rounded up", upper, 0x1.df11f45f4e835p+2);
    if (harmonic(FE_TOWARDZERO) != lower || lower >= nearest || nearest >= upper)
        printf("%a is not between %a and %a\n", nearest, lower, upper);
}
#endif

/* What is no mode is refused, and leaves the one that is set. */
static void no_modes(void)
{
    static const int none[] = {5, 6, 7, 8, 9, -1, 0x7fffffff};
    for (int i = 0; i < COUNT(none); i++)
        if (fesetround(none[i]) == 0 || fegetround() != FE_TONEAREST)
            printf("%d is a mode\n", none[i]);
}

int main(void)
{
    no_modes();
#if !defined(__riscv) || defined(__riscv_flen)
    quotients();
    others();
    bounds();
#endif
    printf("done\n");
    return 0;
}
