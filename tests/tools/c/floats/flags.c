/* The flags of fenv.h, where the machine has them: what is not as it should be is told. Nodes without registers of floating point keep none. */
#include <fenv.h>

#include "show.h"

#if defined(__riscv) && !defined(__riscv_flen)
#define HAS_FLAGS 0
#else
#define HAS_FLAGS 1
#endif

static volatile double zero = 0, one = 1, three = 3, most = DBL_MAX, least = DBL_MIN, nan_value = NAN, result, half = 0.5;
static volatile float single;
static volatile int truth;

#if HAS_FLAGS
static int count;

static void expect(const char *what, int wanted)
{
    int found = fetestexcept(FE_ALL_EXCEPT);
    count++;
    if (found != wanted)
        printf("%s: %x and not %x\n", what, found, wanted);
    feclearexcept(FE_ALL_EXCEPT);
    if (fetestexcept(FE_ALL_EXCEPT))
        printf("%s: flags stay\n", what);
}

#define MAKES(expression, flags) (result = (expression), expect(#expression, flags))

static void arithmetic(void)
{
    MAKES(one + one, 0);
    MAKES(one / three, FE_INEXACT);
    MAKES(one / zero, FE_DIVBYZERO);
    MAKES(zero / zero, FE_INVALID);
    MAKES(most * most, FE_OVERFLOW | FE_INEXACT);
    MAKES(least * least, FE_UNDERFLOW | FE_INEXACT);
    MAKES(least * half, 0);
    MAKES(least / three, FE_UNDERFLOW | FE_INEXACT);
    MAKES(0x1.fffffffffffffp-1 * least, FE_UNDERFLOW | FE_INEXACT);
    MAKES(sqrt(-one), FE_INVALID);
    MAKES(sqrt(three), FE_INEXACT);
    MAKES(nan_value + one, 0);
    MAKES(INFINITY - one * INFINITY, FE_INVALID);
    MAKES((single = (float)(one / 4)), 0);
    MAKES((single = (float)most), FE_OVERFLOW | FE_INEXACT);
    MAKES((single = (float)least), FE_UNDERFLOW | FE_INEXACT);
    MAKES((truth = (int)half), FE_INEXACT);
    MAKES((truth = (int)most), FE_INVALID);
    MAKES((truth = nan_value == one), 0);
    MAKES((truth = nan_value < one), FE_INVALID);
    MAKES((truth = isless(nan_value, one)), 0);
    MAKES(fma(one, 0x1p-1074, least), 0);
}

static void kept(void)
{
    fexcept_t flags;
    fenv_t all;
    feraiseexcept(FE_DIVBYZERO | FE_INEXACT);
    fegetexceptflag(&flags, FE_ALL_EXCEPT);
    feclearexcept(FE_INEXACT);
    expect("cleared", FE_DIVBYZERO);
    fesetexceptflag(&flags, FE_INEXACT);
    expect("set", FE_INEXACT);
    feraiseexcept(FE_UNDERFLOW);
    feholdexcept(&all);
    expect("held", 0);
    feraiseexcept(FE_INVALID);
    feupdateenv(&all);
    expect("updated", FE_UNDERFLOW | FE_INVALID);
    result = one / three;
    result = one / zero;
    expect("both", FE_INEXACT | FE_DIVBYZERO);
    if (fegetround() != FE_TONEAREST)
        printf("another rounding mode\n");
    if (count != 27)
        printf("%d were tried\n", count);
}
#endif

int main(void)
{
#if HAS_FLAGS
    feclearexcept(FE_ALL_EXCEPT);
    arithmetic();
    kept();
#endif
    printf("done\n");
    return 0;
}
