/* floor, ceil, trunc, truncf, llround, llrint, llrintf, erff, erfcf, fesetround and fegetround. Those of picolibc 1.8 are wrong for some
   numbers: its ceil(4294967295.5) is 4294965248, its llround(1e18) 999999780956667904, its trunc(1e300) and truncf(1e14f) are other numbers
   too, its llrint(0.3) is 0 in every rounding mode, its erfcf(8) is off by 57 units in the last place, its fesetround(5) sets what is no
   mode, and its fegetround() is -134 without registers of floating point. A program may have functions of these names of its own: these are
   weak. */
#include <fenv.h>
#include <math.h>
#include <stdint.h>
#include <string.h>

#define WEAK __attribute__((weak))

enum { DIGITS = 52, BIAS = 1023, DIGITS_OF_FLOAT = 23, BIAS_OF_FLOAT = 127 };

/* What lies behind the point is the low digits of the pattern. */
static double whole_of(double x)
{
    uint64_t bits;
    memcpy(&bits, &x, sizeof bits);
    int exponent = (int)(bits >> DIGITS & 0x7FF) - BIAS;
    if (exponent >= DIGITS)
        return x;
    bits &= ~UINT64_C(0) << (exponent < 0 ? 63 : DIGITS - exponent);
    memcpy(&x, &bits, sizeof x);
    return x;
}

WEAK double trunc(double x)
{
    return whole_of(x);
}

WEAK float truncf(float x)
{
    uint32_t bits;
    memcpy(&bits, &x, sizeof bits);
    int exponent = (int)(bits >> DIGITS_OF_FLOAT & 0xFF) - BIAS_OF_FLOAT;
    if (exponent >= DIGITS_OF_FLOAT)
        return x;
    bits &= ~UINT32_C(0) << (exponent < 0 ? 31 : DIGITS_OF_FLOAT - exponent);
    memcpy(&x, &bits, sizeof x);
    return x;
}

WEAK double floor(double x)
{
    double whole = whole_of(x);
    return isgreater(whole, x) ? whole - 1 : whole;
}

WEAK double ceil(double x)
{
    double whole = whole_of(x);
    return isless(whole, x) ? whole + 1 : whole;
}

WEAK long long llround(double x)
{
    double whole = whole_of(x);
    return (long long)(fabs(x - whole) >= 0.5 ? whole + copysign(1, x) : whole);
}

/* In the rounding mode that is set, as rint. */
WEAK long long llrint(double x)
{
    return (long long)rint(x);
}

WEAK long long llrintf(float x)
{
    return (long long)rintf(x);
}

/* picolibc has both in one object. */
WEAK float erff(float x)
{
    return (float)erf(x);
}

WEAK float erfcf(float x)
{
    return (float)erfc(x);
}

#ifdef __riscv_flen
WEAK int fesetround(int mode)
{
    if (mode < FE_TONEAREST || mode > FE_TONEAREST_MM)
        return -1;
    __asm__ volatile("fsrm %0" : : "r"(mode));
    return 0;
}
#else
/* All is to the nearest. */
WEAK int fegetround(void)
{
    return FE_TONEAREST;
}
#endif
