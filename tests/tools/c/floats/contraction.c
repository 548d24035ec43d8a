/* A product is rounded before something is added to it, unless fma is called, which rounds once, also where there are no registers of floating
   point. */
#include "show.h"

static volatile double a = 0x1.0000000000001p+0, b = 0x1.ffffffffffffep-1, c = -1.0;
static volatile float d = 0x1.000002p+0f, e = 0x1.fffffcp-1f, f = -1.0f;

static double dot(const double *x, const double *y, int n)
{
    double sum = 0;
    for (int i = 0; i < n; i++)
        sum += x[i] * y[i];
    return sum;
}

/* Sums that are rounded once: beside a number halfway between two, below the least normal one, and what is none. */
static void edges(void)
{
    volatile double values[] = {1, -1, 1 + 0x1p-52, 1 - 0x1p-53, 0x1p-53, -0x1p-1000, 0x1p-540, 0x1p-1074, DBL_MIN, DBL_MAX, 0.0, -0.0, INFINITY, NAN};
    volatile float floats[] = {1, -1, 1 + 0x1p-23f, 1 - 0x1p-24f, 0x1p-24f, -0x1p-120f, 0x1p-75f, 0x1p-149f, FLT_MIN, FLT_MAX, 0.0f, -0.0f, INFINITY, NAN};
    for (int i = 0; i < COUNT(values); i++)
        for (int j = i; j < COUNT(values); j++)
            for (int k = 0; k < COUNT(values); k++) {
                show("fma", fma(values[i], values[j], values[k]));
                show_float("fmaf", fmaf(floats[i], floats[j], floats[k]));
            }
}

int main(void)
{
    double x[64], y[64];
    show("a * b + c", a * b + c);
    show("c - a * b", c - a * b);
    show("-(a * b) - c", -(a * b) - c);
    show("fma", fma(a, b, c));
    show_float("d * e + f", d * e + f);
    show_float("f - d * e", f - d * e);
    show_float("fmaf", fmaf(d, e, f));
    show("a * a - a * a", a * a - a * a);
    show("discriminant", b * b - 4 * a * c);
    for (int i = 0; i < 64; i++) {
        x[i] = sqrt(i + 1.0) - 4;
        y[i] = 1 / (i + 3.0);
    }
    show("inner product", dot(x, y, 64));
    double value = 0;
    for (int i = 0; i < 64; i++)
        value = value * 0.9375 + y[i];
    show("Horner", value);
    volatile double greatest = DBL_MAX;
    show("what overflows on the way", greatest * 2 - greatest);
    show("what does not", fma(greatest, 2, -greatest));
    edges();
    return 0;
}
