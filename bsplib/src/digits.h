/* Converts double to decimal digits and back, both exactly. */
#ifndef BSP_DIGITS_H
#define BSP_DIGITS_H

#include <stdint.h>

/* 0.d1d2d3.. * 10^point, without a zero in front; 0 has no digits. What is behind the last digit is told by is_more alone. All digits of a
   double fit: 309 of them before the point, or 767 behind the zeros that follow it. */
enum { MOST_DIGITS = 1100 };
struct digits {
    int count, point, is_more;
    unsigned char digit[MOST_DIGITS];
};

/* A kind of floating point: how many bits are stored of what stands behind the first 1, and the exponents of that 1. */
struct floating {
    int bits, least, most;
};
extern const struct floating bsp_float, bsp_double;

/* The digits of a number that is not below 0, up to `places` of them; or with is_fixed up to `places` behind the point. The last is rounded
   to the nearest, and to the even one of two. */
void bsp_digits_of(struct digits *to, double number, int places, int is_fixed);

/* The bits of the number of this kind that is nearest to these digits, without a sign; the digits are used up. */
uint64_t bsp_nearest(struct digits *from, const struct floating *kind);

/* The rounding mode that is set, 0 for the nearest: operations have it, and what is read and printed has not. Without registers of floating
   point there is no other one. */
static inline unsigned bsp_rounding(void)
{
    unsigned mode = 0;
#ifdef __riscv_flen
    __asm__ volatile("frrm %0" : "=r"(mode));
#endif
    return mode;
}

/* The double that is nearest to a number. libgcc rounds in the mode that is set, so that another one is put aside for as long as it does: what
   it takes and what it gives pass through both, and so stand between them. */
static inline double bsp_nearest_double(long double number)
{
    double nearest;
#ifdef __riscv_flen
    unsigned mode;
    __asm__ volatile("fsrm %0, zero" : "=r"(mode), "+m"(number));
#endif
    nearest = (double)number;
#ifdef __riscv_flen
    __asm__ volatile("fsrm %1" : "+m"(nearest) : "r"(mode));
#endif
    return nearest;
}

static inline uint64_t bsp_bits_of(double number)
{
    union {
        double number;
        uint64_t bits;
    } as = {number};
    return as.bits;
}

static inline double bsp_double_of(uint64_t bits)
{
    union {
        uint64_t bits;
        double number;
    } as = {bits};
    return as.number;
}

#endif
