/* vfscanf, on which scanf and its kin are built, and strtod, instead of picolibc's. A number with a point is the nearest one to all
   of its digits. */
#include <errno.h>
#include <stdarg.h>
#include <stddef.h>
#include <stdint.h>
#include <stdio.h>
#include <stdlib.h>
#include <string.h>
#include <wchar.h>

#include "digits.h"
#include "files.h"

/* What is read: a text, or a file of which one byte may be looked at. */
enum { NOT_LOOKED_AT = -2 };
struct source {
    const char *text;
    FILE *file;
    int next;
    /* How many bytes may be taken yet, were taken, and belong to what was read. */
    int width, taken, accepted;
};

static int look(struct source *it)
{
    if (it->width == 0)
        return EOF;
    if (it->text != NULL)
        return it->text[it->taken] != '\0' ? (unsigned char)it->text[it->taken] : EOF;
    if (it->next == NOT_LOOKED_AT)
        it->next = getc(it->file);
    return it->next;
}

static int take(struct source *it)
{
    int byte = look(it);
    it->next = NOT_LOOKED_AT;
    it->taken++;
    it->width--;
    return byte;
}

static void accept(struct source *it)
{
    it->accepted = it->taken;
}

static int is_blank(int byte)
{
    return byte == ' ' || (byte >= '\t' && byte <= '\r');
}

static void skip_blanks(struct source *it)
{
    while (is_blank(look(it)))
        take(it);
}

static int small(int byte)
{
    return byte >= 'A' && byte <= 'Z' ? byte | 32 : byte;
}

static int value_of(int byte, int base)
{
    int digit = byte >= '0' && byte <= '9' ? byte - '0' : small(byte) >= 'a' && small(byte) <= 'z' ? small(byte) - 'a' + 10 : base;
    return digit < base ? digit : -1;
}

/* Numbers with a point. */

/* Takes the rest of a word, as far as it goes. */
static int take_word(struct source *it, const char *word)
{
    for (; *word != '\0' && small(look(it)) == *word; word++)
        take(it);
    return *word == '\0';
}

/* An exponent behind its letter. Without digits it is none, and nothing of it belongs to the number. */
static int read_exponent(struct source *it)
{
    enum { MOST = 100000 };
    int exponent = 0, is_negative;
    take(it);
    is_negative = look(it) == '-';
    if (is_negative || look(it) == '+')
        take(it);
    if (value_of(look(it), 10) < 0)
        return 0;
    while (value_of(look(it), 10) >= 0) {
        exponent = exponent * 10 + value_of(take(it), 10);
        exponent = exponent < MOST ? exponent : MOST;
    }
    accept(it);
    return is_negative ? -exponent : exponent;
}

/* A decimal number, of which the zero in front may have been taken. */
static void read_decimal(struct source *it, struct digits *to, int has_digits)
{
    int is_behind = 0;
    for (;;) {
        int digit = value_of(look(it), 10);
        if (digit < 0 && (look(it) != '.' || is_behind))
            break;
        take(it);
        if (digit < 0)
            is_behind = 1;
        else if (to->count == 0 && digit == 0)
            to->point -= is_behind;
        else {
            to->point += !is_behind;
            if (to->count < MOST_DIGITS)
                to->digit[to->count++] = (unsigned char)digit;
            else
                to->is_more |= digit != 0;
        }
        has_digits |= digit >= 0;
        if (has_digits)
            accept(it);
    }
    if (has_digits && small(look(it)) == 'e')
        to->point += read_exponent(it);
}

/* The number m * 2^exponent, a little more where is_more says so. */
static uint64_t nearest_binary(uint64_t m, int exponent, int is_more, const struct floating *kind)
{
    uint64_t infinite = (uint64_t)(kind->most - kind->least + 2) << kind->bits, half, rest;
    int drop;
    if (m == 0)
        return 0;
    for (; m >> 63 == 0; exponent--)
        m <<= 1;
    /* The first 1 has the exponent + 63. */
    if (exponent + 63 > kind->most)
        return infinite;
    drop = 63 - kind->bits;
    if (exponent + 63 < kind->least)
        drop += kind->least - (exponent + 63);
    if (drop > 64)
        return 0;
    half = (uint64_t)1 << (drop - 1);
    rest = drop < 64 ? m & (2 * half - 1) : m;
    m = drop < 64 ? m >> drop : 0;
    m += rest > half || (rest == half && (is_more || m % 2 == 1));
    return m + (exponent + 63 > kind->least ? (uint64_t)(exponent + 63 - kind->least) << kind->bits : 0);
}

/* A number in figures of four bits, behind its 0x. */
static uint64_t read_hexadecimal(struct source *it, const struct floating *kind)
{
    uint64_t m = 0;
    int is_behind = 0, is_more = 0, has_digits = 0, exponent = 0;
    for (;;) {
        int digit = value_of(look(it), 16);
        if (digit < 0 && (look(it) != '.' || is_behind))
            break;
        take(it);
        has_digits |= digit >= 0;
        if (has_digits)
            accept(it);
        if (digit < 0)
            is_behind = 1;
        else if (m >> 60 == 0) {
            m = m << 4 | (uint64_t)digit;
            exponent -= is_behind ? 4 : 0;
        } else {
            is_more |= digit != 0;
            exponent += is_behind ? 0 : 4;
        }
    }
    if (has_digits && small(look(it)) == 'p')
        exponent += read_exponent(it);
    return nearest_binary(m, exponent, is_more, kind);
}

/* The bits of a decimal number. One of up to fifteen digits takes one operation on doubles, where that rounds to the nearest. */
static uint64_t bits_of_decimal(struct digits *from, const struct floating *kind)
{
    static const double tens[] = {1e0, 1e1, 1e2, 1e3, 1e4, 1e5, 1e6, 1e7, 1e8, 1e9, 1e10, 1e11,
                                  1e12, 1e13, 1e14, 1e15, 1e16, 1e17, 1e18, 1e19, 1e20, 1e21, 1e22};
    int exponent = from->point - from->count;
    uint64_t whole = 0;
    if (from->count == 0)
        return 0;
    if (kind != &bsp_double || from->count > 15 || exponent < -22 || exponent > 22 || bsp_rounding() != 0)
        return bsp_nearest(from, kind);
    for (int i = 0; i < from->count; i++)
        whole = 10 * whole + from->digit[i];
    return bsp_bits_of(exponent < 0 ? (double)whole / tens[-exponent] : (double)whole * tens[exponent]);
}

/* The bits of the number that is read, with its sign as the highest of them. Where there is none, nothing is accepted. */
static uint64_t read_floating(struct source *it, const struct floating *kind)
{
    uint64_t infinite = (uint64_t)(kind->most - kind->least + 2) << kind->bits, bits = 0, sign = 0;
    int begin = it->taken;
    it->accepted = begin;
    if (look(it) == '-' || look(it) == '+')
        sign = take(it) == '-' ? (infinite >> kind->bits) + 1 : 0;
    if (small(look(it)) == 'i') {
        if (!take_word(it, "inf"))
            return 0;
        accept(it);
        if (take_word(it, "inity"))
            accept(it);
        bits = infinite;
    } else if (small(look(it)) == 'n') {
        if (!take_word(it, "nan"))
            return 0;
        accept(it);
        if (look(it) == '(') {
            do
                take(it);
            while (value_of(look(it), 36) >= 0 || look(it) == '_');
            if (look(it) == ')') {
                take(it);
                accept(it);
            }
        }
        bits = infinite | (uint64_t)1 << (kind->bits - 1);
    } else {
        struct digits digits;
        int is_zero = look(it) == '0';
        if (is_zero) {
            take(it);
            accept(it);
        }
        digits.count = digits.point = digits.is_more = 0;
        if (is_zero && small(look(it)) == 'x') {
            take(it);
            bits = read_hexadecimal(it, kind);
        } else {
            read_decimal(it, &digits, is_zero);
            bits = bits_of_decimal(&digits, kind);
        }
    }
    return bits | sign << kind->bits;
}

/* Whether a number without a sign has another digit than 0 before its exponent. */
static int has_digit(const char *text, const char *end)
{
    int is_hexadecimal = text[0] == '0' && small(text[1]) == 'x';
    for (text += is_hexadecimal ? 2 : 0; text < end && small(*text) != (is_hexadecimal ? 'p' : 'e'); text++)
        if (*text != '0' && *text != '.')
            return 1;
    return 0;
}

static uint64_t floating_of(const char *text, char **end, const struct floating *kind)
{
    struct source from = {text, NULL, NOT_LOOKED_AT, -1, 0, 0};
    uint64_t bits, size;
    int begin;
    skip_blanks(&from);
    begin = from.taken;
    bits = read_floating(&from, kind);
    if (end != NULL)
        *end = (char *)text + (from.accepted > begin ? from.accepted : 0);
    if (from.accepted <= begin)
        return 0;
    size = bits >> kind->bits & (uint64_t)(2 * kind->most + 1);
    begin += text[begin] == '-' || text[begin] == '+';
    if ((size == (uint64_t)(2 * kind->most + 1) || (size == 0 && has_digit(text + begin, text + from.accepted))) && small(text[begin]) < 'a')
        errno = ERANGE;
    return bits;
}

static float float_of(uint64_t bits)
{
    union {
        uint32_t bits;
        float number;
    } as = {(uint32_t)bits};
    return as.number;
}

double strtod(const char *restrict text, char **restrict end)
{
    if (text == NULL)
        bsp_stop_for_null("strtod");
    return bsp_double_of(floating_of(text, end, &bsp_double));
}

float strtof(const char *restrict text, char **restrict end)
{
    return float_of(floating_of(text, end, &bsp_float));
}

/* A long double has no more digits than a double here. */
long double strtold(const char *restrict text, char **restrict end)
{
    return strtod(text, end);
}

double atof(const char *text)
{
    if (text == NULL)
        bsp_stop_for_null("atof");
    return strtod(text, NULL);
}

/* What scanf does. */

/* A conversion: its letter, the position of its argument from 1 on where it has one, whether what it reads is dropped, whether memory is
   taken for it, the most bytes that it takes, or 0, and the bytes of a number. */
struct conversion {
    char letter;
    int position, is_dropped, is_kept, width, size;
};

static const char *read_digits(const char *at, int *number)
{
    enum { MOST = 100000000 };
    for (*number = 0; *at >= '0' && *at <= '9'; at++)
        *number = *number < MOST ? *number * 10 + *at - '0' : *number;
    return at;
}

static const char *read_conversion(struct conversion *how, const char *at)
{
    memset(how, 0, sizeof *how);
    at = read_digits(at, &how->width);
    if (*at == '$') {
        how->position = how->width;
        how->width = 0;
        at++;
    }
    if (*at == '*') {
        how->is_dropped = 1;
        at++;
    }
    if (how->width == 0)
        at = read_digits(at, &how->width);
    for (; *at != '\0' && strchr("hljqztLm", *at) != NULL; at++)
        switch (*at) {
        case 'm':
            how->is_kept = 1;
            break;
        case 'h':
            how->size = how->size == 2 ? 1 : 2;
            break;
        case 'l':
            how->size = how->size == 4 ? 8 : 4;
            break;
        case 'j':
        case 'q':
            how->size = 8;
            break;
        case 'L':
            how->size = 16;
            break;
        default:
            how->size = 4;
        }
    how->letter = *at;
    if (how->letter == 'S' || how->letter == 'C') {
        how->letter = how->letter == 'S' ? 's' : 'c';
        how->size = 4;
    }
    return at;
}

/* Where a conversion stores: the next argument, or the one that it names. */
static void *place_of(const struct conversion *how, va_list *rest, va_list *first)
{
    void *place = NULL;
    va_list from;
    if (how->position == 0)
        return va_arg(*rest, void *);
    va_copy(from, *first);
    for (int i = 0; i < how->position; i++)
        place = va_arg(from, void *);
    va_end(from);
    return place;
}

static void store_whole(void *to, int size, uint64_t number)
{
    switch (size) {
    case 1:
        *(uint8_t *)to = (uint8_t)number;
        break;
    case 2:
        *(uint16_t *)to = (uint16_t)number;
        break;
    case 8:
        *(uint64_t *)to = number;
        break;
    default:
        *(uint32_t *)to = (uint32_t)number;
    }
}

/* Notes a number that fits 64 bits alone. */
__attribute__((cold, noinline)) static void look_at_long(const struct conversion *how, uint64_t number, int is_negative)
{
    uint64_t most = how->letter == 'd' || how->letter == 'i' ? (uint64_t)INT32_MAX + (unsigned)is_negative : UINT32_MAX;
    if (number > most)
        bsp_note_read("scanf", number, is_negative);
}

static int scan_whole(struct source *from, const struct conversion *how, void *to)
{
    int base = how->letter == 'o' ? 8 : how->letter == 'x' || how->letter == 'X' || how->letter == 'p' ? 16 : 10;
    int is_negative = look(from) == '-', digits = 0;
    uint64_t number = 0;
    if (is_negative || look(from) == '+')
        take(from);
    if (look(from) == '0' && (base == 16 || how->letter == 'i')) {
        take(from);
        digits++;
        if (small(look(from)) == 'x') {
            take(from);
            base = 16;
        } else if (how->letter == 'i')
            base = 8;
    }
    for (; value_of(look(from), base) >= 0; digits++)
        number = number * (unsigned)base + (unsigned)value_of(take(from), base);
    if (digits > 0 && to != NULL) {
        if (number > INT32_MAX && how->size == 4)
            look_at_long(how, number, is_negative);
        store_whole(to, how->size, is_negative ? 0 - number : number);
    }
    return digits > 0;
}

static int scan_floating(struct source *from, const struct conversion *how, void *to)
{
    const struct floating *kind = how->size == 4 || how->size == 16 ? &bsp_double : &bsp_float;
    int begin = from->taken;
    uint64_t bits = read_floating(from, kind);
    if (from->accepted <= begin || from->accepted != from->taken)
        return 0;
    if (to == NULL)
        return 1;
    if (how->size == 4)
        *(double *)to = bsp_double_of(bits);
    else if (how->size == 16)
        *(long double *)to = bsp_double_of(bits);
    else
        *(float *)to = float_of(bits);
    return 1;
}

/* Which bytes a text takes: %s those that are not blank, %c all, and %[..] those of a set. */
struct set {
    unsigned char has[256];
};

static const char *read_set(struct set *to, const char *at)
{
    int is_other = *at == '^';
    at += is_other;
    memset(to->has, is_other, sizeof to->has);
    do {
        int first = (unsigned char)*at++, last = first;
        if (*at == '-' && at[1] != ']' && at[1] != '\0') {
            last = (unsigned char)at[1];
            at += 2;
        }
        for (int byte = first; byte <= last; byte++)
            to->has[byte] = !is_other;
    } while (*at != ']' && *at != '\0');
    return at;
}

static int belongs(const struct conversion *how, const struct set *set, int byte)
{
    if (byte == EOF || how->letter == 'c')
        return byte != EOF;
    return how->letter == 's' ? !is_blank(byte) : set->has[(unsigned char)byte];
}

/* Room for one character more than there are, in memory that a conversion takes: NULL where there is none. */
static void *room_for(void *text, int count, size_t size)
{
    enum { FIRST = 32 };
    void *larger = text;
    if (count == 0 || (count >= FIRST && (count & (count - 1)) == 0))
        larger = realloc(text, (size_t)(count == 0 ? FIRST : 2 * count) * size);
    if (larger == NULL)
        free(text);
    return larger;
}

static void store_character(void *text, int at, int size, int character)
{
    if (size == 4)
        ((wchar_t *)text)[at] = character;
    else
        ((char *)text)[at] = (char)character;
}

/* Bytes, up to the width, or a text that ends with a zero. EOF where there is no memory for it. */
static int scan_text(struct source *from, const struct conversion *how, const struct set *set, void *to)
{
    size_t size = how->size == 4 ? sizeof(wchar_t) : 1;
    void *text = how->is_kept ? NULL : to;
    int count = 0, has_end = how->letter != 'c';
    for (; belongs(how, set, look(from)); count++) {
        if (how->is_kept && to != NULL && (text = room_for(text, count, size)) == NULL)
            return EOF;
        if (text != NULL)
            store_character(text, count, how->size, look(from));
        take(from);
    }
    if (count == 0 || to == NULL)
        return count > 0;
    if (how->is_kept && has_end && (text = room_for(text, count, size)) == NULL)
        return EOF;
    if (has_end)
        store_character(text, count, how->size, '\0');
    if (how->is_kept)
        *(void **)to = text;
    return 1;
}

/* One conversion: 1 where something was read, 0 where it does not match. */
static int scan_one(struct source *from, const struct conversion *how, const struct set *set, void *to)
{
    switch (how->letter) {
    case 'c':
    case 's':
    case '[':
        return scan_text(from, how, set, to);
    case 'd':
    case 'i':
    case 'u':
    case 'x':
    case 'X':
    case 'o':
    case 'p':
        return scan_whole(from, how, to);
    default:
        return strchr("aefgAEFG", how->letter) != NULL && scan_floating(from, how, to);
    }
}

/* A byte of the format that is no conversion: 1 where the input has it, 0 where it has another one, EOF at its end. */
static int match(struct source *from, int byte)
{
    if (look(from) == EOF)
        return EOF;
    if (look(from) != byte)
        return 0;
    take(from);
    return 1;
}

/* A conversion of the format, whose argument is `to`: 1 where something was read, 0 where it does not match, EOF at the end of the input.
   */
static int convert(struct source *from, const struct conversion *how, const struct set *set, void *to)
{
    if (how->letter != '[' && how->letter != 'c')
        skip_blanks(from);
    if (how->letter == '%')
        return match(from, '%');
    if (look(from) == EOF)
        return EOF;
    from->width = how->width > 0 ? how->width : how->letter == 'c' ? 1 : -1;
    return scan_one(from, how, set, to);
}

/* Up to the end of the format, or what does not match it: how many were stored, or EOF where the input ends before the first. */
static int scan(struct source *from, const char *format, va_list *arguments)
{
    int stored = 0;
    va_list first;
    va_copy(first, *arguments);
    for (; *format != '\0'; format++) {
        struct conversion how = {.letter = '%', .is_dropped = 1};
        struct set set;
        void *to = NULL;
        int found;
        from->width = -1;
        if (is_blank(*format)) {
            skip_blanks(from);
            continue;
        }
        if (*format != '%')
            found = match(from, (unsigned char)*format);
        else {
            format = read_conversion(&how, format + 1);
            if (how.letter != '%' && !how.is_dropped)
                to = place_of(&how, arguments, &first);
            if (how.letter == 'n') {
                if (to != NULL)
                    store_whole(to, how.size, (uint64_t)from->taken);
                continue;
            }
            if (how.letter == '[')
                format = read_set(&set, format + 1);
            found = convert(from, &how, &set, to);
        }
        if (found == EOF && stored == 0)
            stored = EOF;
        if (found != 1)
            break;
        stored += how.letter != '%' && !how.is_dropped;
    }
    va_end(first);
    return stored;
}

/* Leaves the byte that was looked at in its stream. The one place that ungetc has is the program's, and is taken only for a byte that the
   program has put there. */
static void leave(FILE *file, int byte)
{
    const struct __file_ext *stream = (const struct __file_ext *)file;
    if (!(file->flags & __SEXT) || stream->seek == NULL || stream->seek(file, byte, BSP_BACK) < 0)
        ungetc(byte, file);
}

/* It does not name stdin: a program that has it for sscanf alone would be linked with the input, and bsprun wait for that. */
int vfscanf(FILE *file, const char *format, va_list arguments)
{
    struct source from = {NULL, file, NOT_LOOKED_AT, -1, 0, 0};
    va_list rest;
    int stored;
    va_copy(rest, arguments);
    stored = scan(&from, format, &rest);
    va_end(rest);
    if (from.next != NOT_LOOKED_AT && from.next != EOF)
        leave(file, from.next);
    if (stored == EOF && file == bsp_ended_input && !bsp_has_input) {
        bsp_note(NOTE_EMPTY, __builtin_return_address(0), 0, 0, "");
        bsp_has_input = 1;
    }
    return stored;
}
