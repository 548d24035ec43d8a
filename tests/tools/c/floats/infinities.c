/* Arithmetic with infinities, and what overflows. */
#include "show.h"

static volatile double values[] = {INFINITY, -INFINITY, 0.0, -0.0, 1.0, -2.0, DBL_MAX, -DBL_MAX, DBL_MIN};

int main(void)
{
    for (int i = 0; i < COUNT(values); i++)
        for (int j = 0; j < COUNT(values); j++) {
            double a = values[i], b = values[j];
            float c = (float)a, d = (float)b;
            printf("%d %d\n", i, j);
            show("+", a + b);
            show("-", a - b);
            show("*", a * b);
            show("/", a / b);
            show_float("+", c + d);
            show_float("*", c * d);
            show_float("/", c / d);
        }
    show("root", sqrt(values[0]));
    show("root below 0", sqrt(values[1]));
    printf("%d %d %d\n", isinf(values[0]) != 0, isinf(values[6]) != 0, isfinite(values[6]) != 0);
    return 0;
}
