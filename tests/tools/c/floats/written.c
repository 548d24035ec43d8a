/* Numbers that are read and printed. On nodes these are the nearest ones in each rounding mode that can be set, and what differs is told; the
   host has that to the nearest alone, as its other modes count for them there. */
#include <fenv.h>

#include "show.h"

static const char *const texts[] = {"0.1", "-0.1", "0.3", "2.2", "-1.7", "123456789012345e-22", "-123456789012345e22", "999999999999999e8",
    "1e23", "-1e23", "8.5", "0.1000000000000000055511151231257827", "-9007199254740993", "9007199254740993.00000000000000001", "1e-310", "-3e-324",
    "2e-324", "1e400", "-1e400", "1.7976931348623158e308", "1.7976931348623159e308", "0x1.00000000000008p0", "-0x1.00000000000018p0", "16777217",
    "-33554435", "3.4028236e38", "1e-46"};
enum { TEXTS = COUNT(texts) };

/* What is read of a text: by strtod and strtof, by scanf of each size. */
struct numbers {
    double by_strtod, by_scanf;
    float by_strtof, by_scanf_of_float;
    long double by_scanf_of_long;
};

static struct numbers numbers_of(const char *text)
{
    struct numbers it;
    it.by_strtod = strtod(text, NULL);
    it.by_strtof = strtof(text, NULL);
    sscanf(text, "%lf", &it.by_scanf);
    sscanf(text, "%f", &it.by_scanf_of_float);
    sscanf(text, "%Lf", &it.by_scanf_of_long);
    return it;
}

static volatile double one = 1, three = 3;
static volatile long double number, least = 1e-30L;

/* What is printed of some numbers, of which the last one is between two doubles. */
static void print_to(char *to)
{
    to += sprintf(to, "%.0f %.0f %.3f %.3f %.2e %.2e %g ", 2.5, -3.5, 0.0625, -2.0005, 1.125, -99950.0, 1234565.0);
    to += sprintf(to, "%.17g %.1a %.1a %.20f ", 0.1, 1.03125, -1.09375, 0.1);
    sprintf(to, "%.17Lg %.17Lg", number, -number);
}

#ifdef __riscv
static void expect(int mode, const char *text, const char *how, int is_same)
{
    if (!is_same)
        printf("%s by %s is another number in the mode %d\n", text, how, mode);
}

static void read_in(int mode, const char *text, const struct numbers *wanted)
{
    struct numbers found;
    int is_set = fesetround(mode) == 0;
    found = numbers_of(text);
    fesetround(0);
    if (!is_set)
        return;
    expect(mode, text, "strtod", bits_of(found.by_strtod) == bits_of(wanted->by_strtod));
    expect(mode, text, "strtof", bits_of_float(found.by_strtof) == bits_of_float(wanted->by_strtof));
    expect(mode, text, "%lf", bits_of(found.by_scanf) == bits_of(wanted->by_scanf));
    expect(mode, text, "%f", bits_of_float(found.by_scanf_of_float) == bits_of_float(wanted->by_scanf_of_float));
    expect(mode, text, "%Lf", found.by_scanf_of_long == wanted->by_scanf_of_long);
}

static void print_in(int mode, const char *wanted)
{
    char found[400];
    int is_set = fesetround(mode) == 0;
    print_to(found);
    fesetround(0);
    if (is_set && strcmp(found, wanted) != 0)
        printf("%s and not %s in the mode %d\n", found, wanted, mode);
}
#endif

int main(void)
{
    char wanted[400];
    number = one / three + least;
    for (int i = 0; i < TEXTS; i++) {
        struct numbers it = numbers_of(texts[i]);
        show(texts[i], it.by_strtod);
        show(texts[i], it.by_scanf);
        show_float(texts[i], it.by_strtof);
        show_float(texts[i], it.by_scanf_of_float);
#ifdef __riscv
        for (int mode = 1; mode <= 4; mode++)
            read_in(mode, texts[i], &it);
#endif
    }
    print_to(wanted);
    printf("%s\n", wanted);
#ifdef __riscv
    for (int mode = 1; mode <= 4; mode++)
        print_in(mode, wanted);
#endif
    return 0;
}
