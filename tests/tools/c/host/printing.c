/* printf and all that are like it. A call is: the function, the size that it is given, the format, how many of the arguments are stars, and
   then the arguments, each a letter for its type and a value. */
#include <stdarg.h>
#include <stddef.h>

#include "calls.h"

enum { MOST_ARGUMENTS = 16, ROOM = 70000, FENCE = 8 };

struct argument {
    char type;
    int64_t whole;
    double real;
    long double wide_real;
    void *place;
    int64_t stored;
};

static struct argument arguments[MOST_ARGUMENTS];
static int argument_count;
static char room[ROOM + FENCE];

static wchar_t *read_wide(void)
{
    static wchar_t texts[4][64];
    static int next = 0;
    wchar_t *text = texts[next++ % 4];
    int count = (int)read_number();
    for (int i = 0; i < count; i++)
        text[i] = (wchar_t)read_number();
    text[count] = L'\0';
    return text;
}

static void read_argument(struct argument *to)
{
    memset(to, 0, sizeof *to);
    to->type = *read_word();
    switch (to->type) {
    case 's':
        to->place = read_text();
        break;
    case 'w':
        to->place = read_wide();
        break;
    case 'n':
        to->place = &to->stored;
        break;
    case 'r':
    case 'R':
        to->real = read_real();
        to->wide_real = to->real;
        break;
    case 'p':
        to->place = (void *)(intptr_t)read_number();
        break;
    default:
        to->whole = read_number();
    }
}

/* A list of arguments as the caller of a variadic function leaves it in memory. */
static char slots[MOST_ARGUMENTS * 16 + 16] __attribute__((aligned(16)));
static size_t slots_size;

static void add_slot(const void *value, size_t size, size_t alignment)
{
    slots_size = (slots_size + alignment - 1) / alignment * alignment;
    memcpy(slots + slots_size, value, size);
    slots_size += size;
}

static void add_argument(struct argument *it)
{
    int whole = (int)it->whole;
    long word = it->type == 'u' ? (long)(uword_t)it->whole : (long)(word_t)it->whole;
#ifdef __riscv
    long double *place = &it->wide_real;
#endif
    slots_size = (slots_size + sizeof(long) - 1) / sizeof(long) * sizeof(long);
    switch (it->type) {
    case 'i':
        add_slot(&whole, sizeof whole, sizeof(long));
        break;
    case 'l':
    case 'u':
        add_slot(&word, sizeof word, sizeof word);
        break;
    case 'q':
        add_slot(&it->whole, sizeof it->whole, 8);
        break;
    case 'r':
        add_slot(&it->real, sizeof it->real, 8);
        break;
    case 'R':
#ifdef __riscv
        add_slot(&place, sizeof place, sizeof place);
#else
        add_slot(&it->wide_real, 16, 16);
#endif
        break;
    default:
        add_slot(&it->place, sizeof it->place, sizeof it->place);
    }
}

static void make_list(va_list *list)
{
#ifdef __riscv
    void *first = slots;
#else
    /* No argument is left in a register. */
    const struct {
        unsigned whole, real;
        void *rest, *saved;
    } first = {48, 176, slots, slots};
#endif
    slots_size = 0;
    for (int i = 0; i < argument_count; i++)
        add_argument(&arguments[i]);
    memcpy(list, &first, sizeof first);
}

/* The call itself, of one conversion with so many stars in front of its value, by the type of the value. */
#define SNPRINTF(...) snprintf(to, size, format, __VA_ARGS__)
#define SPRINTF(...) sprintf(to, format, __VA_ARGS__)
#define FPRINTF(...) fprintf(file, format, __VA_ARGS__)
#define PRINTF(...) printf(format, __VA_ARGS__)
#define WITH_STARS(call, value) (stars == 0 ? call(value) : stars == 1 ? call(first, value) : call(first, second, value))
#define OF_TYPE(call) \
    (it->type == 'i'   ? WITH_STARS(call, (int)it->whole) \
     : it->type == 'l' ? WITH_STARS(call, (long)(word_t)it->whole) \
     : it->type == 'u' ? WITH_STARS(call, (unsigned long)(uword_t)it->whole) \
     : it->type == 'q' ? WITH_STARS(call, (long long)it->whole) \
     : it->type == 'r' ? WITH_STARS(call, it->real) \
     : it->type == 'R' ? WITH_STARS(call, it->wide_real) \
                       : WITH_STARS(call, it->place))

#ifndef SMALL
static FILE *file;
#endif

static int make_call(char function, size_t size, char *to, const char *format, int stars)
{
    const struct argument *it = &arguments[stars];
    int first = (int)arguments[0].whole, second = (int)arguments[1].whole;
    va_list list;
    make_list(&list);
    switch (function) {
    case 'n':
        return OF_TYPE(SNPRINTF);
    case 'N':
        return vsnprintf(to, size, format, list);
    case 'o':
        fputs(">", stdout);
        return OF_TYPE(PRINTF);
    case 'O':
        fputs(">", stdout);
        return vprintf(format, list);
#ifndef SMALL
    case 's':
        return OF_TYPE(SPRINTF);
    case 'S':
        return vsprintf(to, format, list);
    case 'f':
        return OF_TYPE(FPRINTF);
    default:
        return vfprintf(file, format, list);
#else
    default:
        return -2;
#endif
    }
}

/* What was written, if the call did not fail: C does not say what stands there then. */
static void say_room(size_t size, int answer)
{
    size_t count = answer < 0 ? 0 : (size_t)answer;
    count = count < size ? count + 1 : size;
    if (answer >= 0)
        say_bytes(room, count);
    for (size_t i = count > size ? count : size; i < ROOM + FENCE; i++)
        if (room[i] != '\x55') {
            say("touched");
            say_number((int64_t)i);
            break;
        }
}

static void say_file(int answer)
{
#ifndef SMALL
    if (answer >= 0) {
        say_number(ftell(file));
        rewind(file);
        say_bytes(room, fread(room, 1, ROOM, file));
    }
    fclose(file);
#endif
    (void)answer;
}

static void print(void)
{
    char function = *read_word(), *format;
    size_t size = (size_t)read_number();
    int is_bare = function == 's' || function == 'S', is_to_file = function == 'f' || function == 'F';
    int is_shown = function == 'o' || function == 'O';
    int stars, answer;
    format = read_text();
    stars = (int)read_number();
    for (argument_count = 0; argument_count < MOST_ARGUMENTS && has_word(); argument_count++)
        read_argument(&arguments[argument_count]);
    memset(room, 0x55, sizeof room);
#ifndef SMALL
    if (is_to_file)
        file = tmpfile();
    errno = 0;
#endif
    answer = make_call(function, size, size == 0 && !is_bare ? NULL : room, format, stars);
    if (is_shown)
        fputs("<", stdout);
    say_number(answer);
#ifndef SMALL
    if (answer < 0)
        say_errno();
#endif
    if (is_to_file)
        say_file(answer);
    else if (!is_shown)
        say_room(is_bare ? ROOM : size, answer);
    for (int i = 0; i < argument_count; i++)
        if (arguments[i].type == 'n')
            say_number(arguments[i].stored);
    end_call();
}

int main(void)
{
    while (read_call())
        print();
    return 0;
}
