/* wchar.h, wctype.h and the conversions of stdlib.h, in the locale C. A call is the function and its operands: wide texts are how many
   characters they have and their codes, others are texts. */
#include <limits.h>
#include <stddef.h>
#include <wchar.h>
#include <wctype.h>

#include "calls.h"

enum { ROOM = 120 };

static wchar_t first[ROOM], second[ROOM], room[ROOM];
static char bytes[4 * ROOM];

static size_t read_wide(wchar_t *to)
{
    size_t count = (size_t)read_number();
    for (size_t i = 0; i < count; i++)
        to[i] = (wchar_t)read_number();
    to[count] = L'\0';
    return count;
}

static void say_wide(const wchar_t *text, size_t count)
{
    for (size_t i = 0; i < count; i++)
        say_number(text[i]);
    say(".");
}

/* The room up to the last character that was written. */
static void say_room(void)
{
    size_t count = ROOM;
    while (count > 0 && room[count - 1] == 0x55555555)
        count--;
    say_wide(room, count);
}

static void say_wide_place(const wchar_t *place, const wchar_t *from)
{
    if (place == NULL)
        say("NULL");
    else
        say_number(place - from);
}

static int is(const char *function, const char *name)
{
    return strcmp(function, name) == 0;
}

static int copy(const char *function)
{
    size_t count = (size_t)read_number();
    wchar_t *end = NULL;
    if (is(function, "wcscpy"))
        end = wcscpy(room, first);
    else if (is(function, "wcsncpy"))
        end = wcsncpy(room, first, count);
    else if (is(function, "wmemcpy"))
        end = wmemcpy(room, first, count);
    else if (is(function, "wmemmove"))
        end = wmemmove(first + 3, first, count);
    else if (is(function, "wmemset"))
        end = wmemset(room, first[0], count);
    else if (is(function, "wcscat"))
        end = wcscat(wcscpy(room, second), first);
    else if (is(function, "wcsncat"))
        end = wcsncat(wcscpy(room, second), first, count);
    else if (is(function, "wcpcpy"))
        end = wcpcpy(room, first);
    else if (is(function, "wcpncpy"))
        end = wcpncpy(room, first, count);
    else
        return 0;
    say_number(end - (is(function, "wmemmove") ? first : room));
    say_wide(first, 20);
    say_room();
    return 1;
}

static int compare(const char *function)
{
    size_t count = (size_t)read_number();
    if (is(function, "wcscmp"))
        say_sign(wcscmp(first, second));
    else if (is(function, "wcsncmp"))
        say_sign(wcsncmp(first, second, count));
    else if (is(function, "wmemcmp"))
        say_sign(wmemcmp(first, second, count));
    else if (is(function, "wcscoll"))
        say_sign(wcscoll(first, second));
    else if (is(function, "wcscasecmp"))
        say_sign(wcscasecmp(first, second));
    else if (is(function, "wcsncasecmp"))
        say_sign(wcsncasecmp(first, second, count));
    else if (is(function, "wcsspn"))
        say_number((int64_t)wcsspn(first, second));
    else if (is(function, "wcscspn"))
        say_number((int64_t)wcscspn(first, second));
    else if (is(function, "wcspbrk"))
        say_wide_place(wcspbrk(first, second), first);
    else if (is(function, "wcsstr"))
        say_wide_place(wcsstr(first, second), first);
    else if (is(function, "wcsxfrm"))
        say_number((int64_t)wcsxfrm(room, first, count));
    else
        return 0;
    return 1;
}

static int look(const char *function)
{
    size_t count = (size_t)read_number();
    wchar_t *kept = NULL;
    if (is(function, "wcslen"))
        say_number((int64_t)wcslen(first));
    else if (is(function, "wcsnlen"))
        say_number((int64_t)wcsnlen(first, count));
    else if (is(function, "wcschr"))
        say_wide_place(wcschr(first, second[0]), first);
    else if (is(function, "wcsrchr"))
        say_wide_place(wcsrchr(first, second[0]), first);
    else if (is(function, "wmemchr"))
        say_wide_place(wmemchr(first, second[0], count), first);
    else if (is(function, "wcstok"))
        for (wchar_t *word = wcstok(first, second, &kept); word != NULL; word = wcstok(NULL, second, &kept))
            say_wide_place(word, first);
    else
        return 0;
    return 1;
}

static int read_wide_number(const char *function)
{
    int base = (int)read_number();
    wchar_t *end = NULL;
    errno = 0;
    if (is(function, "wcstol")) {
        long number = wcstol(first, &end, base);
        if (number > INT32_MAX || number < INT32_MIN) {
            errno = ERANGE;
            number = number < 0 ? INT32_MIN : INT32_MAX;
        }
        say_number(number);
    } else if (is(function, "wcstoll"))
        say_number(wcstoll(first, &end, base));
    else if (is(function, "wcstoull"))
        say_number((int64_t)wcstoull(first, &end, base));
    else if (is(function, "wcstod"))
        say_real(wcstod(first, &end));
    else if (is(function, "wcstof"))
        say_real(wcstof(first, &end));
    else
        return 0;
    say_wide_place(end, first);
    say_errno();
    return 1;
}

static int convert(const char *function)
{
    size_t count = (size_t)read_number();
    const wchar_t *from = first;
    const char *next = bytes;
    char to[ROOM];
    mbstate_t state;
    memset(&state, 0, sizeof state);
    memset(to, 0x55, sizeof to);
    errno = 0;
    if (is(function, "mbstowcs"))
        say_number((int32_t)mbstowcs(room, bytes, count));
    else if (is(function, "wcstombs"))
        say_number((int32_t)wcstombs(to, first, count));
    else if (is(function, "mbsrtowcs"))
        say_number((int32_t)mbsrtowcs(room, &next, count, &state));
    else if (is(function, "wcsrtombs"))
        say_number((int32_t)wcsrtombs(to, &from, count, &state));
    else if (is(function, "mbrtowc"))
        say_number((int32_t)mbrtowc(room, bytes, count, &state));
    else if (is(function, "mbtowc"))
        say_number(mbtowc(room, bytes, count));
    else if (is(function, "mblen"))
        say_number(mblen(bytes, count));
    else if (is(function, "mbrlen"))
        say_number((int32_t)mbrlen(bytes, count, &state));
    else if (is(function, "wcrtomb"))
        say_number((int32_t)wcrtomb(to, first[0], &state));
    else if (is(function, "wctomb"))
        say_number(wctomb(to, first[0]));
    else
        return 0;
    if (errno != 0) {
        say_errno();
        return 1;
    }
    say_room();
    say_bytes(to, sizeof to);
    say_wide_place(from, first);
    say_place(next, bytes);
    say_number(mbsinit(&state) != 0);
    return 1;
}

static void classify(const char *function)
{
    static int (*const functions[])(wint_t) = {
        iswalnum, iswalpha, iswblank, iswcntrl, iswdigit, iswgraph, iswlower, iswprint, iswpunct, iswspace, iswupper, iswxdigit};
    static const char *const names[] = {
        "alnum", "alpha", "blank", "cntrl", "digit", "graph", "lower", "print", "punct", "space", "upper", "xdigit"};
    wint_t code = (wint_t)first[0];
    if (is(function, "btowc")) {
        say_number((int32_t)btowc((int)code));
        say_number(wctob(code));
        return;
    }
    for (size_t i = 0; i < sizeof functions / sizeof *functions; i++) {
        say(functions[i](code) ? "1" : "0");
        say(iswctype(code, wctype(names[i])) ? "1" : "0");
    }
    say_number((int32_t)towlower(code));
    say_number((int32_t)towupper(code));
    say_number((int32_t)towctrans(code, wctrans("tolower")));
    say_number((int32_t)towctrans(code, wctrans("toupper")));
    say(wctype("none") == 0 ? "0" : "1");
}

int main(void)
{
    static int (*const kinds[])(const char *) = {copy, compare, look, read_wide_number, convert};
    while (read_call()) {
        const char *function = read_word();
        size_t i, count;
        char *rest;
        static char operand[16];
        const char *given_bytes = read_bytes(&count);
        memcpy(bytes, given_bytes, count + 1);
        for (i = 0; i < ROOM; i++)
            first[i] = second[i] = L'\0', room[i] = 0x55555555;
        read_wide(first);
        read_wide(second);
        rest = given_next;
        strcpy(operand, rest);
        for (i = 0; i < sizeof kinds / sizeof *kinds; i++) {
            given_next = strcpy(rest, operand);
            if (kinds[i](function))
                break;
        }
        if (i == sizeof kinds / sizeof *kinds)
            classify(function);
        end_call();
    }
    return 0;
}
