/* Numbers below the least normal one, which lose their digits one by one. */
#include "show.h"

static volatile double least = DBL_MIN, odd = 0x1.fffffffffffffp-1022;
static volatile float least_float = FLT_MIN, odd_float = 0x1.fffffep-126f;

int main(void)
{
    int halves = 0;
    for (volatile double x = least; x > 0; x /= 2)
        halves++;
    printf("%d halves\n", halves);
    halves = 0;
    for (volatile float x = least_float; x > 0; x *= 0.5f)
        halves++;
    printf("%d halves of a float\n", halves);
    for (int i = 0; i < 56; i++) {
        show("odd", ldexp(1.0, -i) * odd);
        show("back", ldexp(ldexp(1.0, -i) * odd, i));
    }
    for (int i = 0; i < 26; i++)
        show_float("odd", ldexpf(1.0f, -i) * odd_float);
    show("difference", least - 0x1.0000000000001p-1022);
    show("sum", 0x1.ffffffffffffep-1023 + 0x1p-1074 * (least > 0));
    show("product", least * 0x1.fffffffffffffp-1);
    show("quotient", least / 3);
    show("quotient", 0x1p-1074 * (least > 0) / 0x1p-1074);
    show("root", sqrt(least / 0x1p+51));
    show_float("from a double", (float)(least_float / 3.0));
    show_float("from a double, halfway", (float)(0x1.8p-149 * (least_float > 0)));
    show_float("from a double, to nothing", (float)(0x1p-150 * (least_float > 0)));
    show("to a double", least_float / 4096);
    printf("%d %d\n", fpclassify(least / 2) == FP_SUBNORMAL, fpclassify(least) == FP_NORMAL);
    return 0;
}
