/* Limits by names of old. */
#ifndef BSP_LIBC_VALUES_H
#define BSP_LIBC_VALUES_H

#pragma GCC system_header

#include <float.h>
#include <limits.h>

#ifdef __cplusplus
extern "C" {
#endif

#define BITS(type) (8 * (int)sizeof(type))
#define CHARBITS BITS(char)
#define SHORTBITS BITS(short)
#define INTBITS BITS(int)
#define LONGBITS BITS(long)
#define MAXSHORT SHRT_MAX
#define MAXINT INT_MAX
#define MAXLONG LONG_MAX
#define MINSHORT SHRT_MIN
#define MININT INT_MIN
#define MINLONG LONG_MIN
#define MAXDOUBLE DBL_MAX
#define MINDOUBLE DBL_MIN
#define MAXFLOAT FLT_MAX
#define MINFLOAT FLT_MIN

#ifdef __cplusplus
}
#endif

#endif
