/* Numbers in wide strings, and wide strings as bytes, instead of picolibc's. Those leave the end of a text that has no number behind its
   blanks, take `0x` without figures for none, cut a character that has no byte, and have letters beyond those of the locale. A program may
   have functions of these names of its own: these are weak. */
#include <errno.h>
#include <stddef.h>
#include <stdint.h>
#include <stdlib.h>
#include <wchar.h>
#include <wctype.h>

#include "machine.h"

#define WEAK __attribute__((weak))

/* So many characters are read without memory of the heap. */
enum { ROOM = 128 };

/* Whether a character may stand in a number. */
static int is_of_number(wchar_t letter)
{
    if ((letter >= L'0' && letter <= L'9') || ((letter | 32) >= L'a' && (letter | 32) <= L'z'))
        return 1;
    return letter == L'+' || letter == L'-' || letter == L'.' || letter == L'_' || letter == L'(' || letter == L')';
}

/* Blanks, and what may be of the number behind them, as bytes: in the room, or in memory of the heap. */
static char *narrowed(const wchar_t *text, char *room)
{
    size_t count = 0;
    char *bytes = room;
    while (text[count] == L' ' || (text[count] >= L'\t' && text[count] <= L'\r'))
        count++;
    while (is_of_number(text[count]))
        count++;
    if (count >= ROOM)
        bytes = malloc(count + 1);
    if (bytes == NULL)
        bsp_stop("there is no memory for the digits of a wide text: give --memory");
    for (size_t i = 0; i < count; i++)
        bytes[i] = (char)text[i];
    bytes[count] = '\0';
    return bytes;
}

#define READER(type, name, reader, parameters, ...) \
    WEAK type name parameters \
    { \
        char room[ROOM], *stop, *bytes = narrowed(text, room); \
        type number = reader(bytes, &stop __VA_ARGS__); \
        if (end != NULL) \
            *end = (wchar_t *)text + (stop - bytes); \
        if (bytes != room) \
            free(bytes); \
        return number; \
    }

READER(long, wcstol, strtol, (const wchar_t *restrict text, wchar_t **restrict end, int base), , base)
READER(unsigned long, wcstoul, strtoul, (const wchar_t *restrict text, wchar_t **restrict end, int base), , base)
READER(long long, wcstoll, strtoll, (const wchar_t *restrict text, wchar_t **restrict end, int base), , base)
READER(unsigned long long, wcstoull, strtoull, (const wchar_t *restrict text, wchar_t **restrict end, int base), , base)
READER(double, wcstod, strtod, (const wchar_t *restrict text, wchar_t **restrict end), )
READER(float, wcstof, strtof, (const wchar_t *restrict text, wchar_t **restrict end), )

/* In the locale C letters are those of ASCII, as towlower and towupper have it. */
WEAK wint_t towctrans(wint_t letter, wctrans_t how)
{
    if (how != 0 && how == wctrans("tolower"))
        return towlower(letter);
    return how != 0 && how == wctrans("toupper") ? towupper(letter) : letter;
}

/* In the locale C a character is a byte, as picolibc's wcrtomb has it, and those above 255 are none. */
WEAK size_t wcsrtombs(char *restrict to, const wchar_t **restrict from, size_t size, mbstate_t *restrict state)
{
    enum { MOST = 255 };
    const wchar_t *text = *from;
    size_t count = 0;
    (void)state;
    for (; to == NULL || count < size; count++) {
        if ((uint32_t)text[count] > MOST) {
            errno = EILSEQ;
            *from = to == NULL ? *from : text + count;
            return (size_t)-1;
        }
        if (to != NULL)
            to[count] = (char)text[count];
        if (text[count] == L'\0') {
            *from = to == NULL ? *from : NULL;
            return count;
        }
    }
    *from = text + count;
    return count;
}

WEAK size_t wcstombs(char *restrict to, const wchar_t *restrict from, size_t size)
{
    const wchar_t *next = from;
    return wcsrtombs(to, &next, size, NULL);
}
