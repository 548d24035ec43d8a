/* csqrt, and the functions of complex.h for floats. musl's csqrt divides by 0 for subnormal numbers. What is computed with doubles has so
   many digits more that each part is the nearest float, but where it lies next to halfway between two. A program may have functions of
   these names of its own: these are weak. */
#include <features.h>
#define csqrt csqrt_of_musl
static double _Complex csqrt_of_musl(double _Complex z);
#pragma GCC diagnostic push
#pragma GCC diagnostic ignored "-Wunused-but-set-variable"
#pragma GCC diagnostic ignored "-Wunknown-pragmas"
#include "../vendor/musl/src/complex/csqrt.c"
#pragma GCC diagnostic pop
#undef csqrt

#define WEAK __attribute__((weak))

WEAK double complex csqrt(double complex z)
{
    double size = fmax(fabs(creal(z)), fabs(cimag(z)));
    if (size >= 0x1p-1000 || size == 0)
        return csqrt_of_musl(z);
    z = csqrt_of_musl(CMPLX(creal(z) * 0x1p100, cimag(z) * 0x1p100));
    return CMPLX(creal(z) * 0x1p-50, cimag(z) * 0x1p-50);
}

#define OF_FLOATS(name) \
    WEAK float complex name##f(float complex z) \
    { \
        return (float complex)name((double complex)z); \
    }

OF_FLOATS(cacos)
OF_FLOATS(cacosh)
OF_FLOATS(casin)
OF_FLOATS(casinh)
OF_FLOATS(catan)
OF_FLOATS(catanh)
OF_FLOATS(ccos)
OF_FLOATS(ccosh)
OF_FLOATS(cexp)
OF_FLOATS(clog)
OF_FLOATS(csin)
OF_FLOATS(csinh)
OF_FLOATS(csqrt)
OF_FLOATS(ctan)
OF_FLOATS(ctanh)

WEAK float complex cpowf(float complex z, float complex exponent)
{
    return (float complex)cpow((double complex)z, (double complex)exponent);
}
