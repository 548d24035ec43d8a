/* Conversions of whole numbers of 64 bits, for which there is no instruction. */
#include <limits.h>

#include "show.h"

static volatile long long numbers[] = {
    0, 1, -1, LLONG_MAX, LLONG_MIN, 9007199254740993, -9007199254740993, 9007199254740995, 0x7FFFFFFFFFFFFDFF, 0x7FFFFFFFFFFFFE00,
    0x7FFFFF4000000000, 0x7FFFFFC000000000, 16777217, -16777219, 0x0000008000008000, 0x0000008000008001, 1LL << 62,
};
static volatile unsigned long long unsigneds[] = {ULLONG_MAX, 1ULL << 63, (1ULL << 63) + 1024, (1ULL << 63) + 1025, ULLONG_MAX - 1024};
static volatile double doubles[] = {
    0.0, -0.9, 1e18, -1e18, 9223372036854774784.0, -9223372036854775808.0, 4294967296.5, -4294967295.5, 0x1.fffffffffffffp+52,
};

int main(void)
{
    for (int i = 0; i < COUNT(numbers); i++) {
        show("double", (double)numbers[i]);
        show_float("float", (float)numbers[i]);
    }
    for (int i = 0; i < COUNT(unsigneds); i++) {
        show("double", (double)unsigneds[i]);
        show_float("float", (float)unsigneds[i]);
        printf("%llu\n", (unsigned long long)(double)(unsigneds[i] >> 1));
    }
    for (int i = 0; i < COUNT(doubles); i++) {
        printf("%.17g: %lld %lld\n", doubles[i], (long long)doubles[i], (long long)(float)(doubles[i] / 4));
        if (doubles[i] >= 0)
            printf("%llu\n", (unsigned long long)(doubles[i] * 1.5));
    }
    return 0;
}
