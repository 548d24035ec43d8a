/* Calls with many arguments, by pointers, by themselves, and over longjmp: registers that a function has to keep are kept. */
#include <setjmp.h>

#include "show.h"

#define APART __attribute__((noinline)) static

APART double many(double a, int i, float b, double c, long long j, float d, double e, float f, double g, double h, double k, float l, int m,
    int n, double o, int p)
{
    return a + i * 2 + b * 3 + c * 4 + (double)j * 5 + d * 6 + e * 7 + f * 8 + g * 9 + h * 10 + k * 11 + l * 12 + m * 13 + n * 14 + o * 15
        + p * 16;
}

APART double twice(double x)
{
    return 2 * x;
}

APART float thrice(float x)
{
    return 3 * x;
}

/* With values that are alive over the calls. */
APART double tree(int depth, double a, double b)
{
    if (depth == 0)
        return a * b;
    double left = tree(depth - 1, a + 1, b / 2), middle = a - b, right = tree(depth - 1, a / 3, b + left);
    return left - right * middle + a / (b + 0.5);
}

static int compared(const void *a, const void *b)
{
    double x = *(const double *)a, y = *(const double *)b;
    return (x > y) - (x < y);
}

static jmp_buf place;

APART void leave(double a, double b, double c, double d, double e, double f)
{
    double g = a * b, h = c * d, i = e * f, j = a - f, k = b / c, l = d + e;
    if (g + h + i + j + k + l + twice(g) + twice(h) + twice(i) + twice(j) + twice(k) + twice(l) > 0)
        longjmp(place, 5);
}

APART double jumped(double a, double b, double c, double d)
{
    double kept = a * 3, other = b / 7, more = c - d, last = d * d;
    int found = setjmp(place);
    if (found == 0)
        leave(a, b, c, d, a + b, c + d);
    return kept + other * 10 + more * 100 + last * 1000 + found;
}

int main(void)
{
    volatile double seventh = 1.0 / 7;
    volatile float third = 1.0f / 3;
    show("many", many(seventh, 1, third, 2, 1LL << 35, 3, seventh, third, 4, 5, 6, third, 7, 8, seventh, 9));
    double (*of_double)(double) = seventh > 0 ? twice : fabs;
    float (*of_float)(float) = third > 0 ? thrice : fabsf;
    show("by a pointer", of_double(seventh));
    show_float("by a pointer", of_float(third));
    show("tree", tree(9, seventh, third));
    double values[50];
    for (int i = 0; i < 50; i++)
        values[i] = fmod(i * 17.3 + seventh, 11) - 5;
    qsort(values, 50, sizeof values[0], compared);
    show("the least", values[0]), show("the middle", values[25]), show("the greatest", values[49]);
    show("jumped", jumped(seventh, third, 3, 0.75));
    return 0;
}
