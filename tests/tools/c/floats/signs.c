/* Signs, also of NaNs, and their copies. */
#include "show.h"

static volatile double values[] = {0.0, -0.0, 1.25, -1.25, INFINITY, -INFINITY, 0x1p-1074, -0x1p-1074};
static volatile float floats[] = {0.0f, -0.0f, 1.25f, -1.25f, INFINITY, -INFINITY, 0x1p-149f, -0x1p-149f};

static double from(uint64_t bits)
{
    double x;
    memcpy(&x, &bits, sizeof x);
    return x;
}

static double __attribute__((noinline)) negated(double x)
{
    return -x;
}

int main(void)
{
    for (int i = 0; i < COUNT(values); i++)
        for (int j = 0; j < COUNT(values); j++) {
            show("copysign", copysign(values[i], values[j]));
            show("its opposite", copysign(values[i], -values[j]));
            show_float("copysignf", copysignf(floats[i], floats[j]));
            if (!isnan(values[i] * values[j])) /* the sign of a NaN that is made is the processor's */
                show("of a product", copysign(1.0, values[i] * values[j]));
        }
    for (int i = 0; i < COUNT(values); i++) {
        show("fabs", fabs(values[i]));
        show_float("-fabsf", -fabsf(floats[i]));
        printf("%d %d\n", signbit(values[i]) != 0, signbit(floats[i]) != 0);
    }
    volatile double nan = from(0x7FF8000000000000), other = from(0xFFF8000000000000);
    printf("%d %d\n", signbit(nan) != 0, signbit(other) != 0);
    printf("%d %d %d\n", signbit(negated(nan)) != 0, signbit(fabs(other)) != 0, signbit(copysign(nan, -1.0)) != 0);
    show("with the sign of a NaN", copysign(3.0, other));
    return 0;
}
