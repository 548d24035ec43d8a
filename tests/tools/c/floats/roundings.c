/* Whole numbers near a number. */
#include "show.h"

static volatile double values[] = {
    0.5, 1.5, 2.5, -0.5, -1.5, -2.5, 0.49999999999999994, -0.49999999999999994, 4503599627370495.5, 4503599627370496.5, 4294967295.5,
    -4294967295.5, -1125899906842623.9, 0.0, -0.0, 1e300, -1e18, -0x1p-1074, 2147483646.5, -2147483647.5, 1.9999999999999998, INFINITY,
};
static volatile float floats[] = {0.5f, 1.5f, -2.5f, 0.49999997f, 8388607.5f, -8388608.0f, 1e14f, 1e30f, -INFINITY, -0x1p-149f};

int main(void)
{
    for (int i = 0; i < COUNT(values); i++) {
        double x = values[i];
        show("floor", floor(x));
        show("ceil", ceil(x));
        show("trunc", trunc(x));
        show("round", round(x));
        show("rint", rint(x));
        show("nearbyint", nearbyint(x));
        if (fabs(x) < 2147483648.0)
            printf("%ld %ld %lld %lld %d\n", lrint(x), lround(x), llrint(x), llround(x), (int)x);
        else if (fabs(x) <= 1e18)
            printf("%lld %lld\n", llrint(x), llround(x));
    }
    for (int i = 0; i < COUNT(floats); i++) {
        float x = floats[i];
        show_float("floorf", floorf(x));
        show_float("ceilf", ceilf(x));
        show_float("truncf", truncf(x));
        show_float("roundf", roundf(x));
        show_float("rintf", rintf(x));
        if (fabsf(x) < 1e9f)
            printf("%ld %ld\n", lrintf(x), lroundf(x));
    }
    return 0;
}
