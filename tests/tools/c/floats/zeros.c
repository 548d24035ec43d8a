/* Zeros of both signs. */
#include "show.h"

static volatile double zeros[] = {0.0, -0.0}, one = 1.0, small = DBL_MIN;
static volatile float floats[] = {0.0f, -0.0f}, tiny = FLT_MIN;

static double absolute(double x)
{
    return x < 0 ? -x : x;
}

int main(void)
{
    for (int i = 0; i < 2; i++)
        for (int j = 0; j < 2; j++) {
            double a = zeros[i], b = zeros[j];
            printf("%d %d: %d %d\n", i, j, a == b, a < b);
            show("sum", a + b);
            show("difference", a - b);
            show("product", a * b);
            show_float("sum", floats[i] + floats[j]);
            show_float("difference", floats[i] - floats[j]);
        }
    for (int i = 0; i < 2; i++) {
        show("negated", -zeros[i]);
        show("0 - x", 0.0 - zeros[i]);
        show("x + 0", zeros[i] + 0.0);
        show("x * 1", zeros[i] * one);
        show("1 / x", one / zeros[i]);
        show("root", sqrt(zeros[i]));
        show("absolute, by a comparison", absolute(zeros[i]));
        show("fabs", fabs(zeros[i]));
        show("floor", floor(zeros[i]));
        show_float("to a float", (float)zeros[i]);
        show("from a float", floats[i]);
        printf("%d %d\n", (int)zeros[i], signbit(zeros[i]) != 0);
    }
    show("what vanishes", -small * small);
    show_float("what vanishes", -tiny * tiny);
    show("x - x", one - one);
    show("-x + x", -one + one);
    return 0;
}
