/* memcpy, memmove and memset, by words if both addresses have the same alignment. picolibc's take six instructions for each
   byte. GCC makes calls of these out of loops, as of one that copies doubles. A program may have functions of these names of its own: these
   are weak. */
#include <stddef.h>
#include <stdint.h>
#include <string.h>

#define WEAK __attribute__((weak))

/* What stands in memory is of any type. */
typedef uint32_t __attribute__((may_alias)) word;
enum { WORD = sizeof(word), MANY = 8 };

/* How many bytes there are before the first word. */
static size_t before_words(const void *at)
{
    return -(uintptr_t)at % WORD;
}

WEAK void *memcpy(void *restrict to, const void *restrict from, size_t count)
{
    char *at = to;
    const char *source = from;
    if (((uintptr_t)at - (uintptr_t)source) % WORD == 0 && count >= 2 * WORD) {
        char *words = at + before_words(at), *end = at + count;
        while (at < words)
            *at++ = *source++;
        for (; (size_t)(end - at) >= MANY * WORD; at += MANY * WORD, source += MANY * WORD) {
            word *many = (word *)at;
            const word *given = (const word *)source;
            word a = given[0], b = given[1], c = given[2], d = given[3], e = given[4], f = given[5], g = given[6], h = given[7];
            many[0] = a, many[1] = b, many[2] = c, many[3] = d, many[4] = e, many[5] = f, many[6] = g, many[7] = h;
        }
        for (; (size_t)(end - at) >= WORD; at += WORD, source += WORD)
            *(word *)at = *(const word *)source;
        count = (size_t)(end - at);
    }
    for (char *end = at + count; at < end;)
        *at++ = *source++;
    return to;
}

/* From the end where the beginning would be overwritten before it is read. */
WEAK void *memmove(void *to, const void *from, size_t count)
{
    char *at = (char *)to + count;
    const char *source = (const char *)from + count;
    if ((uintptr_t)to - (uintptr_t)from >= count)
        return memcpy(to, from, count);
    if (((uintptr_t)at - (uintptr_t)source) % WORD == 0) {
        for (; count > 0 && (uintptr_t)at % WORD != 0; count--)
            *--at = *--source;
        for (; count >= WORD; count -= WORD) {
            at -= WORD, source -= WORD;
            *(word *)at = *(const word *)source;
        }
    }
    while (count-- > 0)
        *--at = *--source;
    return to;
}

WEAK void *memset(void *to, int byte, size_t count)
{
    char *at = to, *end = at + count;
    word bytes = (unsigned char)byte * 0x01010101u;
    if (count >= 2 * WORD) {
        char *words = at + before_words(at);
        while (at < words)
            *at++ = (char)byte;
        for (; (size_t)(end - at) >= MANY * WORD; at += MANY * WORD) {
            word *many = (word *)at;
            many[0] = many[1] = many[2] = many[3] = many[4] = many[5] = many[6] = many[7] = bytes;
        }
        for (; (size_t)(end - at) >= WORD; at += WORD)
            *(word *)at = bytes;
    }
    while (at < end)
        *at++ = (char)byte;
    return to;
}
