/* The comparisons of math.h that ask whether there is an order. */
#include "show.h"

static volatile double values[] = {-INFINITY, -2.0, -0.0, 0.0, 2.0, INFINITY, NAN};
static volatile float floats[] = {-INFINITY, -2.0f, -0.0f, 0.0f, 2.0f, INFINITY, NAN};

int main(void)
{
    for (int i = 0; i < COUNT(values); i++) {
        for (int j = 0; j < COUNT(values); j++) {
            double a = values[i], b = values[j];
            float c = floats[i], d = floats[j];
            printf("%d %d: %d%d%d%d%d%d %d%d%d%d%d%d\n", i, j, isless(a, b), islessequal(a, b), isgreater(a, b), isgreaterequal(a, b),
                islessgreater(a, b), isunordered(a, b), isless(c, d), islessequal(c, d), isgreater(c, d), isgreaterequal(c, d),
                islessgreater(c, d), isunordered(c, d));
            /* Of zeros of both signs C leaves open which one it is. */
            if (a != b) {
                show("fmin", fmin(a, b));
                show("fmax", fmax(a, b));
                show("fdim", fdim(a, b));
                show_float("fminf", fminf(c, d));
                show_float("fmaxf", fmaxf(c, d));
            }
        }
        printf("%d: %d %d %d %d\n", i, isnan(values[i]) != 0, isinf(values[i]) != 0, isfinite(values[i]) != 0, isnormal(values[i]) != 0);
    }
    return 0;
}
