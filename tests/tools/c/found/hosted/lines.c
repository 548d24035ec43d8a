/* A log with levels, of variable arguments, in lines of a fixed width; dates by strftime, numbers by strtod and strtol with what is left. */
#include <bsp.h>
#include <errno.h>
#include <math.h>
#include <stdarg.h>
#include <stdio.h>
#include <stdlib.h>
#include <string.h>
#include <time.h>

static void note(int level, const char *format, ...)
{
    static const char *const names[] = {"debug", "info", "warning"};
    char line[80];
    va_list rest;
    va_start(rest, format);
    int size = vsnprintf(line, sizeof line, format, rest);
    va_end(rest);
    printf("[%-7s %d] %-.40s%s\n", names[level % 3], bsp_pid(), line, size > 40 ? "..." : "");
}

int main(void)
{
    static const char *const texts[] = {"12.5kg", "-0x1F", " 7e2 rest", "none", "1e999", "0777", "2147483646."};
    bsp_begin(bsp_nprocs());
    struct tm day = {.tm_year = 126, .tm_mon = 10, .tm_mday = 29 + bsp_pid(), .tm_hour = 12};
    char date[40], *end;

    mktime(&day);
    strftime(date, sizeof date, "%Y-%m-%d, day %j", &day);
    note(1, "%s", date);
    for (size_t i = bsp_pid(); i < sizeof texts / sizeof *texts; i += bsp_nprocs()) {
        double number = strtod(texts[i], &end);
        note((int)i, "%s: %g, \"%s\" is left", texts[i], isinf(number) ? 1 : number, end);
        errno = 0;
        int whole = (int)strtol(texts[i], &end, 0);
        note(2, "%d, \"%s\" is left, %s", errno ? 0 : whole, end, end == texts[i] ? "no number at all, which is said here at length" : "ok");
    }
    bsp_end();
    return 0;
}
