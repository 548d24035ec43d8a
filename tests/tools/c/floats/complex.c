/* Numbers of C's complex types, which have two registers. */
#include <complex.h>

#include "show.h"

static void tell(const char *what, double _Complex z)
{
    show(what, creal(z));
    show("  imaginary", cimag(z));
}

/* What a library computes, whose last digits are its own. */
static void tell_12(const char *what, double _Complex z)
{
    printf("%s: %.12g %.12g\n", what, creal(z), cimag(z));
}

/* Finite numbers for which a formula overflows or cancels. */
static void without_overflow(void)
{
    volatile double huge = 1e200, tiny = 1e-200, zero = 0;
    tell_12("catan", catan(CMPLX(huge, huge)));
    tell_12("catanh", catanh(CMPLX(huge, -huge)));
    tell_12("catanh, tiny", catanh(CMPLX(tiny, tiny)));
    tell_12("casin", casin(CMPLX(huge, 1)));
    tell_12("casinh", casinh(CMPLX(-huge, 1)));
    tell_12("casinh, tiny", casinh(CMPLX(tiny, 2)));
    tell_12("cacos", cacos(CMPLX(-huge, tiny)));
    tell_12("cacosh", cacosh(CMPLX(1, tiny)));
    tell_12("ctanh", ctanh(CMPLX(1000, 1)));
    tell_12("ctan", ctan(CMPLX(1, -1000)));
    tell_12("cexp", cexp(CMPLX(710, 1.5707963267948966)));
    tell_12("ccosh", ccosh(CMPLX(-711, 3)));
    tell_12("csqrt", csqrt(CMPLX(-4, -zero)));
    tell_12("csqrt, huge", csqrt(CMPLX(huge * huge / 1e93, huge)));
    tell_12("clog", clog(CMPLX(0.6, 0.8)));
    tell_12("clog, tiny", clog(CMPLX(1, tiny * 1e100)));
    tell_12("cpow", cpow(CMPLX(0.5, -1), CMPLX(2, 1)));
    printf("clogf: %.7g %.7g\n", (double)crealf(clogf(CMPLXF(1, 0x1p-20f))), (double)cimagf(clogf(CMPLXF(1, 0x1p-20f))));
    long double _Complex z = CMPLXL(-zero, 1);
    printf("%d %d\n", signbit(creall(z)) != 0, (int)cimagl(z));
}

/* Quotients, of which each digit is that of libgcc's way, where it is compiled without instructions that round once. */
static void quotients(void)
{
    double _Complex z = 1 + 2 * I, by = 0.75 - 0.5 * I;
    float _Complex single = 1 + 2 * I;
    for (int i = 0; i < 40; i++) {
        by = by * (1.01 + 0.3 * I);
        z = z / by + (0.1 + i * I);
        single = single / (float _Complex)by + (0.1f + (float)i * I);
        tell("quotient", z);
        show_float("of floats", crealf(single));
        show_float("  imaginary", cimagf(single));
    }
}

__attribute__((noinline)) static float _Complex turned(float _Complex z, float _Complex by)
{
    return z * by;
}

int main(void)
{
    volatile double seventh = 1.0 / 7, infinite = INFINITY;
    double _Complex a = seventh + 2 * I, b = 3 - seventh * I, z = 0;
    tell("sum", a + b);
    tell("product", a * b);
    tell("quotient", a / b);
    tell("conjugate", conj(a) * a);
    tell("with an infinity", (infinite + seventh * I) * b);
    tell("by an infinity", a / (infinite + 0 * I));
    float _Complex c = turned((float)seventh + 1.5f * I, 2 - 0.25f * I);
    show_float("of floats", crealf(c));
    show_float("  imaginary", cimagf(c));
    for (int i = 0; i < 20; i++)
        z = z * z + (-0.5 + 0.5 * I);
    tell("after some steps", z);
    printf("%d %d\n", a == b, z != a);
    without_overflow();
    quotients();
    return 0;
}
