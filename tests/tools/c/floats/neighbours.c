/* The next number, and how far it is away. */
#include "show.h"

static volatile double values[] = {0.0, -0.0, 1.0, -1.0, DBL_MIN, DBL_MAX, 0x1p-1074, 2.0, 0x1.fffffffffffffp+52, 1e-310, INFINITY};
static volatile float floats[] = {0.0f, 1.0f, -1.0f, FLT_MIN, FLT_MAX, 0x1p-149f, 2.0f, 16777216.0f, 1e-40f};

int main(void)
{
    for (int i = 0; i < COUNT(values); i++) {
        double x = values[i], above = nextafter(x, INFINITY), below = nextafter(x, -INFINITY);
        show("above", above);
        show("below", below);
        show("to itself", nextafter(x, x));
        show("back", nextafter(above, -INFINITY));
        if (isfinite(above))
            show("distance", above - x);
        show("in the middle", x + (above - x) / 2);
        show("as a float", (float)above);
    }
    for (int i = 0; i < COUNT(floats); i++) {
        float x = floats[i], above = nextafterf(x, INFINITY);
        show_float("above", above);
        show_float("below", nextafterf(x, -INFINITY));
        show("in the middle, as a double", ((double)x + above) / 2);
        show_float("in the middle", (float)(((double)x + above) / 2));
        show_float("a little beside", (float)nextafter(((double)x + above) / 2, x));
    }
    double x = 1.0;
    for (int i = 0; i < 1000; i++)
        x = nextafter(x, 2.0);
    show("a thousand steps", x);
    return 0;
}
