/* Conversions of whole numbers, at the edges of what fits. */
#include <limits.h>

#include "show.h"

static volatile double doubles[] = {
    2147483647.0, 2147483646.5, 2147483647.4, -2147483648.0, -2147483648.9, -2147483647.5, 0.9, -0.9, 1e9, -1e9, 0x1p-1074, 16777217.0,
};
static volatile float floats[] = {2147483520.0f, -2147483648.0f, 0.99999994f, -1.5f, 16777216.0f, 8388607.5f};
static volatile double unsigned_doubles[] = {4294967295.0, 4294967294.9, 2147483648.0, 2147483648.5, 0.5, -0.5, 65535.9};
static volatile int numbers[] = {0, 1, -1, INT_MAX, INT_MIN, INT_MAX - 64, INT_MAX - 63, INT_MIN + 1, 16777217, 16777219, -33554435};
static volatile unsigned unsigneds[] = {0, UINT_MAX, UINT_MAX - 127, UINT_MAX - 128, 0x80000000, 0x80000080, 0x80000081};

int main(void)
{
    for (int i = 0; i < COUNT(doubles); i++)
        printf("%.17g: %d %d\n", doubles[i], (int)doubles[i], (short)(int)(doubles[i] / 65536));
    for (int i = 0; i < COUNT(floats); i++)
        printf("%.9g: %d\n", floats[i], (int)floats[i]);
    for (int i = 0; i < COUNT(unsigned_doubles); i++)
        printf("%.17g: %u\n", unsigned_doubles[i], (unsigned)unsigned_doubles[i]);
    for (int i = 0; i < COUNT(numbers); i++) {
        show("double", numbers[i]);
        show_float("float", (float)numbers[i]);
    }
    for (int i = 0; i < COUNT(unsigneds); i++) {
        show("double", unsigneds[i]);
        show_float("float", (float)unsigneds[i]);
    }
    for (volatile int i = -300; i < 300; i += 37)
        printf("%d %d %d\n", (signed char)(i / 3.0), (unsigned char)(unsigned)(i * i * 0.001), (int)(i * 1e6f));
    return 0;
}
