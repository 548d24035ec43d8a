/* Functions that read a number from a string, and report NULL, which a program may get for a missing argument. picolibc's read the bytes at
   address 0. A number is noted if it is too large for a `long`, which has 64 bits elsewhere. The linker calls each of these instead of the
   function whose name comes after __wrap_. */
#include <errno.h>
#include <inttypes.h>
#include <limits.h>
#include <stddef.h>
#include <stdlib.h>

#include "machine.h"

#define READER(type, name, parameters, arguments) \
    type __real_##name parameters; \
    type __wrap_##name parameters; \
    type __wrap_##name parameters \
    { \
        if (text == NULL) \
            bsp_stop_for_null(#name); \
        return __real_##name arguments; \
    }

READER(long long, atoll, (const char *text), (text))
READER(unsigned long long, strtoull, (const char *text, char **end, int base), (text, end, base))

long __real_strtol(const char *text, char **end, int base);
long long __real_strtoll(const char *text, char **end, int base);
unsigned long __real_strtoul(const char *text, char **end, int base);

static int value_of(char figure)
{
    enum { NONE = 99 };
    if (figure >= '0' && figure <= '9')
        return figure - '0';
    figure |= 32;
    return figure >= 'a' && figure <= 'z' ? figure - 'a' + 10 : NONE;
}

/* Whether a number lies below the least one, whose digits are those of `most`. picolibc's readers do not see it where the first digits of the
   number are just these: they go on with a sum that has become negative. */
__attribute__((cold, noinline)) static int is_too_small(const char *text, int base, unsigned long long most)
{
    unsigned long long sum = 0;
    while (*text == ' ' || (*text >= '\t' && *text <= '\r'))
        text++;
    if (*text++ != '-')
        return 0;
    if ((base == 0 || base == 16) && text[0] == '0' && (text[1] | 32) == 'x') {
        base = 16;
        text += 2;
    } else if (base == 0)
        base = *text == '0' ? 8 : 10;
    for (;; text++) {
        int value = value_of(*text);
        if (value >= base)
            return 0;
        if (sum > (most - (unsigned)value) / (unsigned)base)
            return 1;
        sum = sum * (unsigned)base + (unsigned)value;
    }
}

/* A text of fewer bytes than these is that of no number below the least, in any base. */
enum { BYTES_OF_LEAST = 8, BYTES_OF_LEAST_LONG = 15 };

long long __wrap_strtoll(const char *text, char **end, int base);
long long __wrap_strtoll(const char *text, char **end, int base)
{
    char *stop = NULL;
    long long number;
    if (text == NULL)
        bsp_stop_for_null("strtoll");
    number = __real_strtoll(text, &stop, base);
    if (end != NULL && stop != NULL)
        *end = stop;
    if (number <= 0 && stop - text >= BYTES_OF_LEAST_LONG && is_too_small(text, base, (unsigned long long)LLONG_MAX + 1)) {
        errno = ERANGE;
        return LLONG_MIN;
    }
    return number;
}

/* picolibc's is another copy of strtoll. */
__attribute__((weak)) intmax_t strtoimax(const char *restrict text, char **restrict end, int base)
{
    return strtoll(text, end, base);
}

/* Notes what fits 64 bits alone: what was read is the greatest or the least number then. */
__attribute__((cold, noinline)) static void look_at(const char *name, const char *text, int base, long long most)
{
    int before = errno;
    long long number = __real_strtoll(text, NULL, base);
    if ((number < LONG_MIN || number > most) && number > LLONG_MIN && number < LLONG_MAX)
        bsp_note_read(name, number < 0 ? 0 - (unsigned long long)number : (unsigned long long)number, number < 0);
    errno = before;
}
/* This is not by atol: what it answers was never to have more than 32 bits. */
int __wrap_atoi(const char *text);
int __wrap_atoi(const char *text)
{
    if (text == NULL)
        bsp_stop_for_null("atoi");
    return (int)__real_strtol(text, NULL, 10);
}

/* Whether a number is the greatest or the least. */
static inline int is_at_end(long number)
{
    return (unsigned long)number - LONG_MAX <= 1;
}

long __wrap_strtol(const char *text, char **end, int base);
long __wrap_strtol(const char *text, char **end, int base)
{
    char *stop = NULL;
    long number;
    if (text == NULL)
        bsp_stop_for_null("strtol");
    number = __real_strtol(text, &stop, base);
    if (end != NULL && stop != NULL)
        *end = stop;
    if (number <= 0 && stop - text >= BYTES_OF_LEAST && is_too_small(text, base, (unsigned long long)LONG_MAX + 1)) {
        errno = ERANGE;
        number = LONG_MIN;
    }
    if (is_at_end(number))
        look_at("strtol", text, base, LONG_MAX);
    return number;
}

long __wrap_atol(const char *text);
long __wrap_atol(const char *text)
{
    long number;
    if (text == NULL)
        bsp_stop_for_null("atol");
    number = __real_strtol(text, NULL, 10);
    if (is_at_end(number))
        look_at("atol", text, 10, LONG_MAX);
    return number;
}

unsigned long __wrap_strtoul(const char *text, char **end, int base);
unsigned long __wrap_strtoul(const char *text, char **end, int base)
{
    unsigned long number;
    if (text == NULL)
        bsp_stop_for_null("strtoul");
    number = __real_strtoul(text, end, base);
    if (number == ULONG_MAX)
        look_at("strtoul", text, base, ULONG_MAX);
    return number;
}
