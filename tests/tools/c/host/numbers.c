/* Texts as numbers, and whole numbers as stdlib.h and inttypes.h compute with them. A call is the function and its operands. */
#ifndef SMALL
#include <inttypes.h>
#include <limits.h>
#endif

#include "calls.h"

/* A long double of the node is read as a double, and one of the host rounds twice on its way to one. */
#ifdef __riscv
#define READ_LONG_DOUBLE strtold
#else
#define READ_LONG_DOUBLE strtod
#endif

static char text[4096];

#ifndef SMALL
/* strtol and strtoul of 32 bits, by those that have more. */
static long nearest_signed(long number)
{
    if (number <= INT32_MAX && number >= INT32_MIN)
        return number;
    errno = ERANGE;
    return number < 0 ? INT32_MIN : INT32_MAX;
}

static unsigned long nearest_unsigned(const char *from, unsigned long number)
{
    while (*from == ' ' || (*from >= '\t' && *from <= '\r'))
        from++;
    if (sizeof number > 4 && (*from == '-' ? 0 - number : number) > UINT32_MAX && number > 0) {
        errno = ERANGE;
        return UINT32_MAX;
    }
    return (uint32_t)number;
}

static void say_end(const char *end)
{
    say_place(end, text);
    say_errno();
}

static void read_whole_number(const char *function)
{
    int base = (int)read_number();
    char *end = NULL;
    errno = 0;
    if (strcmp(function, "strtol") == 0)
        say_number(nearest_signed(strtol(text, &end, base)));
    else if (strcmp(function, "strtoul") == 0)
        say_number((int64_t)nearest_unsigned(text, strtoul(text, &end, base)));
    else if (strcmp(function, "strtoll") == 0)
        say_number(strtoll(text, &end, base));
    else if (strcmp(function, "strtoull") == 0)
        say_number((int64_t)strtoull(text, &end, base));
    else if (strcmp(function, "strtoimax") == 0)
        say_number(strtoimax(text, &end, base));
    else
        say_number((int64_t)strtoumax(text, &end, base));
    say_end(end);
}

static int read_real_number(const char *function)
{
    char *end = NULL;
    errno = 0;
    if (strcmp(function, "strtod") == 0)
        say_real(strtod(text, &end));
    else if (strcmp(function, "strtof") == 0)
        say_real(strtof(text, &end));
    else if (strcmp(function, "strtold") == 0)
        say_real((double)READ_LONG_DOUBLE(text, &end));
    else
        return 0;
    say_end(end);
    return 1;
}

static void divide(const char *function)
{
    int64_t left = read_number(), right = read_number();
    if (strcmp(function, "div") == 0) {
        div_t both = div((int)left, (int)right);
        say_number(both.quot);
        say_number(both.rem);
    } else if (strcmp(function, "ldiv") == 0) {
        ldiv_t both = ldiv((word_t)left, (word_t)right);
        say_number(both.quot);
        say_number(both.rem);
    } else if (strcmp(function, "lldiv") == 0) {
        lldiv_t both = lldiv(left, right);
        say_number(both.quot);
        say_number(both.rem);
    } else {
        imaxdiv_t both = imaxdiv(left, right);
        say_number(both.quot);
        say_number(both.rem);
    }
}
#endif

static int make_simple(const char *function)
{
    if (strcmp(function, "atoi") == 0)
        say_number(atoi(text));
    else if (strcmp(function, "abs") == 0)
        say_number(abs((int)read_number()));
    else if (strcmp(function, "labs") == 0)
        say_number(labs((word_t)read_number()));
#ifndef SMALL
    else if (strcmp(function, "atol") == 0)
        say_number(atol(text));
    else if (strcmp(function, "atoll") == 0)
        say_number(atoll(text));
    else if (strcmp(function, "atof") == 0)
        say_real(atof(text));
    else if (strcmp(function, "llabs") == 0)
        say_number(llabs(read_number()));
    else if (strcmp(function, "imaxabs") == 0)
        say_number(imaxabs(read_number()));
#endif
    else
        return 0;
    return 1;
}

int main(void)
{
    while (read_call()) {
        const char *function = read_word();
        if (*function != '\0' && *given_next == '.')
            strcpy(text, read_text());
        if (!make_simple(function)) {
#ifndef SMALL
            if (strstr(function, "div") != NULL)
                divide(function);
            else if (!read_real_number(function))
                read_whole_number(function);
#endif
        }
        end_call();
    }
    return 0;
}
