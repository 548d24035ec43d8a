/* Strings, memory, sorting and the end of the program, for programs without a C library: picolibc's are larger. */
#include <stdlib.h>
#include <string.h>

#include "../src/machine.h"

void *memcpy(void *restrict to, const void *restrict from, size_t count)
{
    char *at = to;
    const char *source = from;
    while (count-- > 0)
        *at++ = *source++;
    return to;
}

void *memmove(void *to, const void *from, size_t count)
{
    char *at = to;
    const char *source = from;
    if (at <= source)
        while (count-- > 0)
            *at++ = *source++;
    else
        while (count-- > 0)
            at[count] = source[count];
    return to;
}

void *memset(void *to, int byte, size_t count)
{
    char *at = to;
    while (count-- > 0)
        *at++ = (char)byte;
    return to;
}

int memcmp(const void *left, const void *right, size_t count)
{
    const unsigned char *a = left, *b = right;
    for (; count > 0; a++, b++, count--)
        if (*a != *b)
            return *a - *b;
    return 0;
}

size_t strlen(const char *text)
{
    size_t count = 0;
    while (text[count] != '\0')
        count++;
    return count;
}

int strcmp(const char *left, const char *right)
{
    return strncmp(left, right, (size_t)-1);
}

int strncmp(const char *left, const char *right, size_t count)
{
    for (; count > 0; left++, right++, count--)
        if (*left != *right || *left == '\0')
            return (unsigned char)*left - (unsigned char)*right;
    return 0;
}

char *strcpy(char *restrict to, const char *restrict from)
{
    memcpy(to, from, strlen(from) + 1);
    return to;
}

char *strchr(const char *text, int byte)
{
    for (;; text++) {
        if (*text == (char)byte)
            return (char *)text;
        if (*text == '\0')
            return NULL;
    }
}

int atoi(const char *text)
{
    int is_negative = 0;
    unsigned number = 0;
    if (text == NULL)
        bsp_stop_for_null("atoi");
    while (*text == ' ' || (*text >= '\t' && *text <= '\r'))
        text++;
    if (*text == '-' || *text == '+')
        is_negative = *text++ == '-';
    while (*text >= '0' && *text <= '9')
        number = number * 10 + (unsigned)(*text++ - '0');
    return (int)(is_negative ? 0 - number : number);
}

int abs(int number)
{
    return number < 0 ? -number : number;
}

long labs(long number)
{
    return number < 0 ? -number : number;
}

/* A heap sort: it takes no memory, and n log n steps at the worst. */
static void swap(char *left, char *right, size_t size)
{
    while (size-- > 0) {
        char byte = *left;
        *left++ = *right;
        *right++ = byte;
    }
}

static void sift(char *base, size_t from, size_t count, size_t size, int (*compare)(const void *, const void *))
{
    for (;;) {
        size_t child = 2 * from + 1;
        if (child >= count)
            return;
        if (child + 1 < count && compare(base + child * size, base + (child + 1) * size) < 0)
            child++;
        if (compare(base + from * size, base + child * size) >= 0)
            return;
        swap(base + from * size, base + child * size, size);
        from = child;
    }
}

void qsort(void *base, size_t count, size_t size, int (*compare)(const void *, const void *))
{
    char *first = base;
    for (size_t from = count / 2; from-- > 0;)
        sift(first, from, count, size, compare);
    while (count > 1) {
        count--;
        swap(first, first + count * size, size);
        sift(first, 0, count, size, compare);
    }
}

/* The heap is a row of blocks, each with its size before it; the lowest bit says that the block is free. */
extern void *sbrk(ptrdiff_t change);
static size_t *first_block = NULL, *last_block = NULL;

static size_t *after(size_t *block)
{
    return (size_t *)((char *)block + (*block & ~(size_t)1));
}

void *malloc(size_t size)
{
    size_t wanted = (size + 8 + 15) & ~(size_t)15;
    size_t *block;
    if (wanted < size || wanted > 0x7fffffff)
        return NULL;
    if (first_block == NULL) {
        /* The heap begins at a multiple of 16, and so does what a block holds 8 bytes further on. */
        first_block = last_block = sbrk(0);
    }
    for (block = first_block; block != last_block; block = after(block)) {
        while ((*block & 1) && after(block) != last_block && (*after(block) & 1))
            *block += *after(block) & ~(size_t)1;
        if ((*block & 1) && (*block & ~(size_t)1) >= wanted) {
            size_t rest = (*block & ~(size_t)1) - wanted;
            *block = wanted;
            if (rest > 0)
                *after(block) = rest | 1;
            return block + 2;
        }
    }
    if (sbrk((ptrdiff_t)wanted) == (void *)-1)
        return NULL;
    *block = wanted;
    last_block = after(block);
    return block + 2;
}

void *calloc(size_t count, size_t size)
{
    void *place;
    if (size > 0 && count > (size_t)-1 / size)
        return NULL;
    place = malloc(count * size);
    return place == NULL ? NULL : memset(place, 0, count * size);
}

void free(void *place)
{
    if (place != NULL)
        ((size_t *)place)[-2] |= 1;
}

extern __attribute__((noreturn)) void _exit(int status);

void exit(int status)
{
    _exit(status);
}

void abort(void)
{
    bsp_stop("abort was called");
}
