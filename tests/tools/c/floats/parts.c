/* Digits and exponents, taken apart and put together. */
#include "show.h"

static volatile double values[] = {1.0, -3.0, 0.1, 1e300, 0x1p-1074, -0x1.8p-1030, DBL_MIN, DBL_MAX, 0.0, -0.0, INFINITY, -7.75};
static volatile float floats[] = {1.0f, -3.0f, 0.1f, 1e38f, 0x1p-149f, FLT_MIN, FLT_MAX, 0.0f, -7.75f};

int main(void)
{
    for (int i = 0; i < COUNT(values); i++) {
        double x = values[i], whole;
        int exponent = 0;
        show("frexp", frexp(x, &exponent));
        if (isfinite(x))
            printf("%d\n", exponent);
        show("modf", modf(x, &whole));
        show("whole", whole);
        if (x != 0 && isfinite(x)) {
            printf("%d\n", ilogb(x));
            show("logb", logb(x));
        }
        for (int by = -1100; by <= 1100; by += 157)
            show("ldexp", ldexp(x, by));
        show("scalbn", scalbn(x, -3));
    }
    for (int i = 0; i < COUNT(floats); i++) {
        float x = floats[i], whole;
        int exponent;
        show_float("frexpf", frexpf(x, &exponent));
        printf("%d\n", exponent);
        show_float("modff", modff(x, &whole));
        show_float("whole", whole);
        for (int by = -160; by <= 160; by += 29)
            show_float("ldexpf", ldexpf(x, by));
    }
    return 0;
}
