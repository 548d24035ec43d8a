/* The inverse functions of complex.h, and clog: those of FreeBSD's msun, as Thrust has them. Those of picolibc 1.8 answer a NaN or an
   infinity for finite numbers, and its clog is wrong near numbers whose absolute value is 1. A program may have functions of these names of
   its own: these are weak. */
#include <thrust/detail/complex/catrig.h>
#include <thrust/detail/complex/clog.h>

#define WEAK extern "C" __attribute__((weak))

namespace {
namespace msun = thrust::detail::complex;

__complex__ double given(const thrust::complex<double> &z)
{
    __complex__ double result;
    __real__ result = z.real();
    __imag__ result = z.imag();
    return result;
}
} // namespace

#define FUNCTION(name) \
    WEAK __complex__ double name(__complex__ double z) \
    { \
        return given(msun::name(thrust::complex<double>(__real__ z, __imag__ z))); \
    }

FUNCTION(casin)
FUNCTION(cacos)
FUNCTION(catan)
FUNCTION(casinh)
FUNCTION(cacosh)
FUNCTION(catanh)

/* Thrust's takes an absolute value that overflows at the largest numbers and has few digits at the least: a power of 2 moves these. */
WEAK __complex__ double clog(__complex__ double z)
{
    double x = __real__ z, y = __imag__ z, size = fmax(fabs(x), fabs(y)), by = 1, moved = 0;
    if (size > 0x1p1022 && size <= DBL_MAX) {
        by = 0.5;
        moved = 0x1.62e42fefa39efp-1; /* log 2 */
    } else if (size < 0x1p-1000 && size > 0) {
        by = 0x1p60;
        moved = -0x1.4cb5ecf0a9650p+5; /* -60 log 2 */
    }
    return given(msun::clog(thrust::complex<double>(x * by, y * by)) + moved);
}
