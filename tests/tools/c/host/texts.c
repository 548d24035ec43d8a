/* string.h, strings.h and ctype.h. A call is the function and its operands: places in an area of 400 bytes, which is filled first with a
   text that the call has, and counts. Behind what the function answers stand the bytes of the area, if it may have changed them. */
#ifndef SMALL
#include <ctype.h>
#include <strings.h>
#include <unistd.h>
#endif

#include "calls.h"

enum { ROOM = 400 };
static char area[ROOM], before[ROOM];

static char *read_place(void)
{
    return area + read_number();
}

static size_t read_count(void)
{
    return (size_t)read_number();
}

/* Whether a function answers a place. It is said, and where nothing was found. */
static void say_found(const void *place)
{
    say_place(place, area);
}

static void say_changes(void)
{
    int first = ROOM, last = -1;
    for (int i = 0; i < ROOM; i++)
        if (area[i] != before[i]) {
            last = i;
            first = first == ROOM ? i : first;
        }
    if (last >= 0) {
        say_number(first);
        say_bytes(area + first, (size_t)(last - first + 1));
    }
}

static int is_called(const char *function, const char *name)
{
    return strcmp(function, name) == 0;
}

static int copy(const char *function)
{
    char *to = read_place();
    const char *from = read_place();
    if (is_called(function, "strcpy"))
        say_found(strcpy(to, from));
    else if (is_called(function, "memcpy"))
        say_found(memcpy(to, from, read_count()));
    else if (is_called(function, "memmove"))
        say_found(memmove(to, from, read_count()));
#ifndef SMALL
    else if (is_called(function, "strcat"))
        say_found(strcat(to, from));
    else if (is_called(function, "strncpy"))
        say_found(strncpy(to, from, read_count()));
    else if (is_called(function, "strncat"))
        say_found(strncat(to, from, read_count()));
    else if (is_called(function, "stpcpy"))
        say_found(stpcpy(to, from));
    else if (is_called(function, "stpncpy"))
        say_found(stpncpy(to, from, read_count()));
    else if (is_called(function, "mempcpy"))
        say_found(mempcpy(to, from, read_count()));
    else if (is_called(function, "memccpy")) {
        int byte = (int)read_number();
        say_found(memccpy(to, from, byte, read_count()));
    } else if (is_called(function, "bcopy"))
        bcopy(from, to, read_count());
    else if (is_called(function, "strxfrm"))
        say_number((int64_t)strxfrm(to, from, read_count()));
    else if (is_called(function, "swab"))
        swab(from, to, (ssize_t)read_count());
#endif
    else
        return 0;
    return 1;
}

static int compare(const char *function)
{
    const char *left = read_place(), *right = read_place();
    if (is_called(function, "strcmp"))
        say_sign(strcmp(left, right));
    else if (is_called(function, "strncmp"))
        say_sign(strncmp(left, right, read_count()));
    else if (is_called(function, "memcmp"))
        say_sign(memcmp(left, right, read_count()));
#ifndef SMALL
    else if (is_called(function, "strcoll"))
        say_sign(strcoll(left, right));
    else if (is_called(function, "strcasecmp"))
        say_sign(strcasecmp(left, right));
    else if (is_called(function, "strncasecmp"))
        say_sign(strncasecmp(left, right, read_count()));
    else if (is_called(function, "bcmp"))
        say_number(bcmp(left, right, read_count()) != 0);
    else if (is_called(function, "strspn"))
        say_number((int64_t)strspn(left, right));
    else if (is_called(function, "strcspn"))
        say_number((int64_t)strcspn(left, right));
    else if (is_called(function, "strpbrk"))
        say_found(strpbrk(left, right));
    else if (is_called(function, "strstr"))
        say_found(strstr(left, right));
    else if (is_called(function, "strcasestr"))
        say_found(strcasestr(left, right));
#endif
    else
        return 0;
    return 1;
}

static int look(const char *function)
{
    char *place = read_place();
    int byte = (int)read_number();
    if (is_called(function, "strchr"))
        say_found(strchr(place, byte));
    else if (is_called(function, "memset"))
        say_found(memset(place, byte, read_count()));
    else if (is_called(function, "strlen"))
        say_number((int64_t)strlen(place));
#ifndef SMALL
    else if (is_called(function, "strrchr"))
        say_found(strrchr(place, byte));
    else if (is_called(function, "strchrnul"))
        say_found(strchrnul(place, byte));
    else if (is_called(function, "index"))
        say_found(index(place, byte));
    else if (is_called(function, "rindex"))
        say_found(rindex(place, byte));
    else if (is_called(function, "memchr"))
        say_found(memchr(place, byte, read_count()));
    else if (is_called(function, "memrchr"))
        say_found(memrchr(place, byte, read_count()));
    else if (is_called(function, "rawmemchr"))
        say_found(rawmemchr(place, byte));
    else if (is_called(function, "strnlen"))
        say_number((int64_t)strnlen(place, read_count()));
    else if (is_called(function, "bzero"))
        bzero(place, read_count());
    else if (is_called(function, "memmem")) {
        size_t count = read_count();
        const char *other = read_place();
        say_found(memmem(place, count, other, read_count()));
    }
#endif
    else
        return 0;
    return 1;
}

#ifndef SMALL
static int split(const char *function)
{
    char *next, *word, *kept = NULL, separators[64];
    if (strncmp(function, "str", 3) != 0 || strstr("strtok_r strsep", function) == NULL)
        return 0;
    next = read_place();
    strcpy(separators, read_place());
    if (is_called(function, "strtok"))
        for (word = strtok(next, separators); word != NULL; word = strtok(NULL, separators))
            say_found(word);
    else if (is_called(function, "strtok_r"))
        for (word = strtok_r(next, separators, &kept); word != NULL; word = strtok_r(NULL, separators, &kept))
            say_found(word);
    else {
        while ((word = strsep(&next, separators)) != NULL)
            say_found(word);
        say_found(next);
    }
    return 1;
}

static int duplicate(const char *function)
{
    const char *from = read_place();
    char *made;
    if (is_called(function, "strdup"))
        made = strdup(from);
    else if (is_called(function, "strndup"))
        made = strndup(from, read_count());
    else
        return 0;
    say_text(made);
    free(made);
    return 1;
}

static int classify(const char *function)
{
    static int (*const functions[])(int) = {
        isalnum, isalpha, isblank, iscntrl, isdigit, isgraph, islower, isprint, ispunct, isspace, isupper, isxdigit};
    int byte = (int)read_number();
    if (is_called(function, "ctype")) {
        for (size_t i = 0; i < sizeof functions / sizeof *functions; i++)
            say(functions[i](byte) ? "1" : "0");
        say_number(tolower(byte));
        say_number(toupper(byte));
        /* As macros, where they are such. */
        say(isalnum(byte) ? "1" : "0");
        say(ispunct(byte) ? "1" : "0");
        say(isspace(byte) ? "1" : "0");
        say_number(toascii(byte));
        say(isascii(byte) ? "1" : "0");
    } else if (is_called(function, "ffs")) {
        say_number(ffs(byte));
        say_number(ffsl((word_t)byte));
    } else if (is_called(function, "ffsll"))
        say_number(ffsll((long long)byte << read_number()));
    else
        return 0;
    return 1;
}
#endif

int main(void)
{
    while (read_call()) {
        size_t count;
        const char *function = read_word(), *content = read_bytes(&count);
        char *rest;
        memset(area, 'z', ROOM);
        memcpy(area, content, count);
        area[ROOM - 1] = '\0';
        memcpy(before, area, ROOM);
        rest = given_next;
        static int (*const kinds[])(const char *) = {
            copy, compare, look,
#ifndef SMALL
            split, duplicate, classify
#endif
        };
        /* Each kind reads the operands from their beginning, which reading parts with zero bytes. */
        static char operands[256];
        strcpy(operands, rest);
        for (size_t i = 0; i < sizeof kinds / sizeof *kinds; i++) {
            strcpy(rest, operands);
            given_next = rest;
            if (kinds[i](function))
                break;
        }
        say_changes();
        end_call();
    }
    return 0;
}
