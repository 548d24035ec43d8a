/* Remainders, which are exact. */
#include "show.h"

static volatile double values[] = {
    5.3, -5.3, 1e300, 0.1, 3.0, -3.0, 1e-300, 0x1p-1074, 0x1.fffffffffffffp+1023, 7.0, 2.5, 4.5, -0.0, 1e16, INFINITY, NAN,
};
static volatile float floats[] = {5.3f, -5.3f, 1e38f, 0.1f, 3.0f, 0x1p-149f, 16777215.0f, 2.5f};

int main(void)
{
    for (int i = 0; i < COUNT(values); i++)
        for (int j = 0; j < COUNT(values); j++) {
            int quotient = 0;
            show("fmod", fmod(values[i], values[j]));
            show("remainder", remainder(values[i], values[j]));
            double rest = remquo(values[i], values[j], &quotient);
            if (rest == rest && values[j] != INFINITY)
                printf("%d\n", abs(quotient) & 7);
        }
    for (int i = 0; i < COUNT(floats); i++)
        for (int j = 0; j < COUNT(floats); j++)
            show_float("fmodf", fmodf(floats[i], floats[j]));
    return 0;
}
