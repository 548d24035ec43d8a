/* Sums whose errors are known, which rest on each operation being rounded once, in the order that is written. */
#include "show.h"

typedef struct {
    double value, error;
} Exact;

static Exact sum(double a, double b)
{
    double s = a + b, t = s - a;
    return (Exact){s, (a - (s - t)) + (b - t)};
}

static Exact product(double a, double b)
{
    const double split = 134217729.0;
    double c = split * a, high = c - (c - a), low = a - high;
    double d = split * b, upper = d - (d - b), lower = b - upper, p = a * b;
    return (Exact){p, low * lower - (((p - high * upper) - low * upper) - high * lower)};
}

int main(void)
{
    volatile int n = 2000;
    double plain = 0, kahan = 0, rest = 0, backwards = 0;
    float single = 0, single_rest = 0;
    for (int i = 1; i <= n; i++) {
        double term = 1.0 / i, y = term - rest, t = kahan + y;
        plain += term;
        rest = (t - kahan) - y;
        kahan = t;
        float z = 1.0f / i - single_rest, u = single + z;
        single_rest = (u - single) - z;
        single = u;
    }
    for (int i = n; i > 0; i--)
        backwards += 1.0 / i;
    show("plain", plain), show("backwards", backwards), show("Kahan's", kahan), show("rest", rest);
    show_float("Kahan's, of floats", single);
    Exact total = {0, 0};
    for (int i = 1; i <= 50; i++) {
        Exact p = product(1.0 / i, sqrt(i)), s = sum(total.value, p.value);
        total.value = s.value;
        total.error += s.error + p.error;
    }
    show("inner product", total.value), show("its error", total.error);
    volatile double big = 1e16;
    show("from the left", big + 1 + 1 - big);
    show("in brackets", big + (1.0 + 1.0) - big);
    show("x / 3 * 3", n / 3.0 * 3.0);
    show("x * (1 / 10)", n * (1 / 10.0) - n / 10.0);
    return 0;
}
