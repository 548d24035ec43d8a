/* scanf and all that are like it. A call is: the function, the format, the text that is read, and a letter for the type of each place that
   something is stored at. What comes of it is the number that scanf answers, what stands at the places, and what is left of the text. */
#include <stdarg.h>
#include <stddef.h>

#include "calls.h"

enum { MOST_PLACES = 6, ROOM = 608 }; /* a multiple of 16, as a long double wants its address */

static char types[MOST_PLACES], rooms[MOST_PLACES][ROOM] __attribute__((aligned(16)));
static int place_count;

static void say_whole(const char *room, char type)
{
    switch (type) {
    case 'H':
        say_number(*(const signed char *)room);
        return;
    case 'h':
        say_number(*(const short *)(const void *)room);
        return;
    case 'q':
        say_number(*(const long long *)(const void *)room);
        return;
    case 'l':
        say_number((word_t) * (const long *)(const void *)room);
        return;
    default:
        say_number(*(const int *)(const void *)room);
    }
}

/* The bytes of a text up to the last that was written. */
static void say_written(const char *room)
{
    int count = ROOM;
    while (count > 0 && room[count - 1] == '\x55')
        count--;
    say_bytes(room, (size_t)count);
}

/* A long double of the node is read as a double, and one of the host would be rounded twice on its way to one: there the format has `l` in
   the place of each `L`, which is a length alone. */
#ifdef __riscv
typedef long double wide_real;

static const char *of_doubles(const char *format)
{
    return format;
}
#else
typedef double wide_real;

static const char *of_doubles(const char *format)
{
    static char changed[4096];
    size_t count = 0;
    for (; format[count] != '\0' && count < sizeof changed - 1; count++)
        changed[count] = format[count] == 'L' ? 'l' : format[count];
    changed[count] = '\0';
    return changed;
}
#endif

static void say_place_of(int i)
{
    static const char unset[] = "\x55\x55\x55\x55";
    float single;
    double real;
    wide_real wide;
    if (types[i] != 's' && types[i] != 'w' && memcmp(rooms[i], unset, sizeof(int)) == 0) {
        say("unset");
        return;
    }
    switch (types[i]) {
    case 's':
        say_written(rooms[i]);
        return;
    case 'w': {
        const wchar_t *wide_text = (const wchar_t *)(const void *)rooms[i];
        for (int at = 0; at < 20 && wide_text[at] != 0x55555555; at++)
            say_number(wide_text[at]);
        say(";");
        return;
    }
    case 'f':
        memcpy(&single, rooms[i], sizeof single);
        say_real(single);
        return;
    case 'r':
        memcpy(&real, rooms[i], sizeof real);
        say_real(real);
        return;
    case 'R':
        memcpy(&wide, rooms[i], sizeof wide);
        say_real((double)wide);
        return;
    case 'p': {
        void *place;
        memcpy(&place, rooms[i], sizeof place);
        say_number((int32_t)(intptr_t)place);
        return;
    }
    default:
        say_whole(rooms[i], types[i]);
    }
}

static int list(int (*function)(const char *, const char *, va_list), const char *text, const char *format, ...)
{
    va_list places;
    int answer;
    va_start(places, format);
    answer = function(text, format, places);
    va_end(places);
    return answer;
}

#define PLACES rooms[0], rooms[1], rooms[2], rooms[3], rooms[4], rooms[5]

#ifndef SMALL
static void scan_file(const char *format, const char *text, size_t count)
{
    FILE *file = tmpfile();
    int byte;
    fwrite(text, 1, count, file);
    rewind(file);
    say_number(fscanf(file, format, PLACES));
    say(feof(file) ? "end" : "more");
    say_number(ftell(file));
    byte = getc(file);
    say_number(byte);
    say_number(ftell(file));
    fclose(file);
}
#endif

/* The text stands in the next lines of the input, with lines of byte 1 behind it and byte 2 as the end. */
static void scan_input(const char *format)
{
    char rest[64];
    int byte, count = 0;
    say_number(scanf(format, PLACES));
    while ((byte = getchar()) != 2 && byte != EOF)
        if (count < (int)sizeof rest)
            rest[count++] = (char)byte;
    getchar();
    say_bytes(rest, (size_t)count);
}

static void scan(void)
{
    char function = *read_word();
    size_t count;
    const char *format = of_doubles(read_text()), *text = read_bytes(&count);
    for (place_count = 0; has_word() && place_count < MOST_PLACES; place_count++)
        types[place_count] = *read_word();
    memset(rooms, 0x55, sizeof rooms);
#ifndef SMALL
    if (function == 's')
        say_number(sscanf(text, format, PLACES));
    else if (function == 'v')
        say_number(list(vsscanf, text, format, PLACES));
    else if (function == 'f')
        scan_file(format, text, count);
#endif
    if (function == 'i')
        scan_input(format);
    (void)text;
    for (int i = 0; i < place_count; i++)
        say_place_of(i);
    end_call();
}

int main(void)
{
#ifdef SMALL
    (void)list;
#endif
    while (read_call())
        scan();
    return 0;
}
