/* fma and fmaf for nodes that have no instruction for them. Those of picolibc round twice, the product and then the sum: its
   fma(2.5, -0.7, 1.75) is 0, and not 2^-53. A program may have functions of these names of its own: these are weak.

   In a wider format the product is exact. The sum is rounded there, but what that lost is known, and where it lost something its last digit is
   made odd. So it is no number of the narrower format and lies halfway between no two of them, and on the same side of each as the exact sum:
   rounded once more it is what that would be. */
#include <math.h>
#include <stdint.h>
#include <string.h>

#define WEAK __attribute__((weak))

#if !defined(__riscv_flen) || __riscv_flen < 64
WEAK double fma(double x, double y, double z)
{
    long double product = (long double)x * y, sum = product + z;
    if (isfinite(sum)) {
        long double part = sum - product, lost = (product - (sum - part)) + (z - part);
        uint64_t words[2];
        memcpy(words, &sum, sizeof words);
        if (lost != 0 && words[0] % 2 == 0) {
            if ((lost > 0) != (sum > 0) && words[0] == 0)
                words[1]--;
            words[0] = (lost > 0) == (sum > 0) ? words[0] + 1 : words[0] - 1;
            memcpy(&sum, words, sizeof sum);
        }
    }
    return (double)sum;
}
#endif

#ifndef __riscv_flen
WEAK float fmaf(float x, float y, float z)
{
    double product = (double)x * y, sum = product + z;
    if (isfinite(sum)) {
        double part = sum - product, lost = (product - (sum - part)) + (z - part);
        uint64_t word;
        memcpy(&word, &sum, sizeof word);
        if (lost != 0 && word % 2 == 0) {
            word = (lost > 0) == (sum > 0) ? word + 1 : word - 1;
            memcpy(&sum, &word, sizeof sum);
        }
    }
    return (float)sum;
}
#endif
