/* Arguments that a function takes by stdarg.h, and more of them than there are registers. */
#include <stdarg.h>

#include "show.h"

static double sum(const char *kinds, ...)
{
    va_list list, again;
    double total = 0;
    va_start(list, kinds);
    va_copy(again, list);
    for (const char *it = kinds; *it; it++)
        switch (*it) {
        case 'd': total += va_arg(list, double); break;
        case 'i': total += va_arg(list, int); break;
        case 'l': total += (double)va_arg(list, long long); break;
        case 's': total += (double)strlen(va_arg(list, char *)); break;
        default: total += *va_arg(list, double *); break;
        }
    for (const char *it = kinds; *it == 'd'; it++)
        total += 1000 * va_arg(again, double);
    va_end(again);
    va_end(list);
    return total;
}

static void tell(const char *format, ...)
{
    char text[200];
    va_list list;
    va_start(list, format);
    vsnprintf(text, sizeof text, format, list);
    va_end(list);
    printf("%s\n", text);
}

static double named(int a, double b, float c, ...)
{
    va_list list;
    va_start(list, c);
    double d = va_arg(list, double);
    int e = va_arg(list, int);
    double f = va_arg(list, double);
    va_end(list);
    return a + b * 2 + c * 4 + d * 8 + e * 16 + f * 32;
}

int main(void)
{
    volatile float single = 0.1f;
    double place = 64.5;
    show("doubles", sum("ddddddddddd", 1.0, 0.5, 0.25, 0.125, 1e-3, 1e-4, 1e-5, 1e-6, 1e-7, 1e-8, 1e-9));
    show("of all kinds", sum("idlsdp", -3, 0.5, 1LL << 40, "four", (double)single, &place));
    show("odd places", sum("idididid", 1, 0.1, 2, 0.2, 3, 0.3, 4, 0.4));
    show("long ones", sum("lidli", 1LL << 33, 7, 0.75, -1LL, 9));
    show("behind named ones", named(1, 0.5, 0.25f, 0.125, -1, single));
    tell("%d %g %s %.3f %lld %e %c %a", 1, 2.5, "three", single, 4LL << 32, 5e-5, '6', 0.75);
    tell("%*.*f|%-10.2e|%+g", 12, 4, 3.14159, single * 1e6, -0.0);
    return 0;
}
