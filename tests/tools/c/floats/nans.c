/* Comparisons with NaNs and infinities, as values and in branches. */
#include "show.h"

static volatile double values[] = {-INFINITY, -1.5, -0.0, 0.0, 1.5, INFINITY, NAN};
static volatile float floats[] = {-INFINITY, -1.5f, -0.0f, 0.0f, 1.5f, INFINITY, NAN};

static int branches(double a, double b)
{
    int found = 0;
    if (a < b)
        found |= 1;
    if (!(a >= b))
        found |= 2;
    if (a > b)
        found |= 4;
    else if (a <= b)
        found |= 8;
    if (a != b)
        found |= 16;
    while (!(a == b)) {
        found |= 32;
        break;
    }
    return a < b || a > b ? found | 64 : found;
}

int main(void)
{
    for (int i = 0; i < COUNT(values); i++)
        for (int j = 0; j < COUNT(values); j++) {
            double a = values[i], b = values[j];
            float c = floats[i], d = floats[j];
            printf("%g %g: %d%d%d%d%d%d %d%d%d%d%d%d %d %d %d\n", i == 6 ? 9 : a, j == 6 ? 9 : b, a < b, a <= b, a > b, a >= b, a == b,
                a != b, c < d, c <= d, c > d, c >= d, c == d, c != d, branches(a, b), a < (a < b ? a : b), !(c < b));
        }
    volatile double nan = NAN;
    printf("%d %d %d\n", nan == nan, nan != nan, !nan);
    printf("%s\n", nan ? "true" : "false");
    return 0;
}
