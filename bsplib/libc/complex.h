/* complex.h of the C library, and what of C11 it lacks: numbers of two parts, of which each may be an infinity, a NaN or a zero with a
   sign. */
#ifndef BSP_COMPLEX_H
#define BSP_COMPLEX_H

#pragma GCC system_header

#include_next <complex.h>

#if !defined(__cplusplus) && !defined(CMPLX) && (!defined(__STRICT_ANSI__) || __STDC_VERSION__ >= 201112L)
#define CMPLX(x, y) __builtin_complex((double)(x), (double)(y))
#define CMPLXF(x, y) __builtin_complex((float)(x), (float)(y))
#define CMPLXL(x, y) __builtin_complex((long double)(x), (long double)(y))
#endif

#endif
