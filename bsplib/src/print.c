/* vfprintf, on which printf and its kin are built, instead of picolibc's. Every digit of a double is as the number has it, and a
   long double is printed as the double that is nearest to it. */
#include <errno.h>
#include <limits.h>
#include <stdarg.h>
#include <stddef.h>
#include <stdint.h>
#include <stdio.h>
#include <string.h>
#include <wchar.h>

#include "digits.h"

/* The letters of conversions. */
static const char LETTERS[] = "diuxXopscn%aefgAEFGSC";

/* Where a conversion goes to, and how many bytes went there. */
struct sink {
    FILE *file;
    int count, is_bad;
    char last; /* the last byte that was put */
};

/* What stands between % and the letter of a conversion. */
struct format {
    int position; /* of its argument, from 1 on */
    int is_left, is_zero, is_other, width, precision;
    char sign, letter;
    /* The bytes of a whole number, or 16 for a long double. */
    int size;
};

/* The arguments: those that are left, or where a format has positions, as %2$d, all of them by these. */
enum kind { WORD, LONG, DOUBLE, LONG_DOUBLE };
union argument {
    uint32_t word;
    uint64_t whole;
    double number;
};
struct arguments {
    va_list rest;
    const union argument *all;
};

static uint32_t take_word(struct arguments *from, int position)
{
    return from->all == NULL ? va_arg(from->rest, uint32_t) : from->all[position].word;
}

static uint64_t take_long(struct arguments *from, int position)
{
    return from->all == NULL ? va_arg(from->rest, uint64_t) : from->all[position].whole;
}

static void *take_place(struct arguments *from, int position)
{
    return (void *)take_word(from, position);
}

static double take_double(struct arguments *from, const struct format *how)
{
    if (from->all != NULL)
        return from->all[how->position].number;
    return how->size == 16 ? bsp_nearest_double(va_arg(from->rest, long double)) : va_arg(from->rest, double);
}

/* picolibc was compiled with a char that has no sign. Of one that has a sign its functions answer a byte above 127 as it came, which is no
   error: a stream that has one says so. */
__attribute__((cold, noinline)) static void look_at_answer(struct sink *to, int answer)
{
    if (answer != to->last || (to->file->flags & __SERR) != 0)
        to->is_bad = 1;
}

static void put(struct sink *to, char byte)
{
    int answer;
    to->last = byte;
    to->count++;
    answer = to->file->put(byte, to->file);
    if (answer < 0)
        look_at_answer(to, answer);
}

static void put_many(struct sink *to, char byte, int count)
{
    while (count-- > 0)
        put(to, byte);
}

static void put_bytes(struct sink *to, const char *bytes, int count)
{
    while (count-- > 0)
        put(to, *bytes++);
}

/* What stands in front of a number: blanks, a sign and a prefix, and zeros where they fill the width. Answers the blanks behind it. */
static int put_front(struct sink *to, const struct format *how, const char *prefix, int count)
{
    int prefixed = (int)strlen(prefix), room = how->width - count - prefixed - (how->sign != '\0');
    if (!how->is_left && !how->is_zero)
        put_many(to, ' ', room);
    if (how->sign != '\0')
        put(to, how->sign);
    put_bytes(to, prefix, prefixed);
    if (!how->is_left && how->is_zero)
        put_many(to, '0', room);
    return how->is_left ? room : 0;
}

static void put_text(struct sink *to, struct format *how, const char *text, int count)
{
    int behind;
    how->sign = '\0';
    how->is_zero = 0;
    behind = put_front(to, how, "", count);
    put_bytes(to, text, count);
    put_many(to, ' ', behind);
}

/* Whole numbers. */

static void put_whole(struct sink *to, struct format *how, uint64_t number)
{
    unsigned base = how->letter == 'o' ? 8 : how->letter == 'x' || how->letter == 'X' || how->letter == 'p' ? 16 : 10;
    const char *figures = how->letter == 'X' ? "0123456789ABCDEF" : "0123456789abcdef", *prefix = "";
    char digits[24], *digit = digits + sizeof digits;
    int count, zeros, behind;
    if (base == 16 && (how->letter == 'p' || (how->is_other && number > 0)))
        prefix = how->letter == 'X' ? "0X" : "0x";
    /* Most numbers fit a word, whose division is one instruction. */
    for (; number > 0xffffffff; number /= base)
        *--digit = figures[number % base];
    for (uint32_t rest = (uint32_t)number; rest > 0; rest /= base)
        *--digit = figures[rest % base];
    count = (int)(digits + sizeof digits - digit);
    if (how->precision >= 0)
        how->is_zero = 0;
    zeros = (how->precision >= 0 ? how->precision : 1) - count;
    if (base == 8 && how->is_other && zeros <= 0)
        zeros = 1;
    zeros = zeros > 0 ? zeros : 0;
    behind = put_front(to, how, prefix, zeros + count);
    put_many(to, '0', zeros);
    put_bytes(to, digit, count);
    put_many(to, ' ', behind);
}

static void put_signed(struct sink *to, struct format *how, struct arguments *from)
{
    int64_t number = how->size == 8 ? (int64_t)take_long(from, how->position) : (int32_t)take_word(from, how->position);
    number = how->size == 1 ? (int8_t)number : how->size == 2 ? (int16_t)number : number;
    how->sign = number < 0 ? '-' : how->sign;
    put_whole(to, how, number < 0 ? 0 - (uint64_t)number : (uint64_t)number);
}

static void put_unsigned(struct sink *to, struct format *how, struct arguments *from)
{
    uint64_t number = how->size == 8 ? take_long(from, how->position) : take_word(from, how->position);
    number = how->size == 1 ? (uint8_t)number : how->size == 2 ? (uint16_t)number : number;
    how->sign = '\0';
    put_whole(to, how, number);
}

/* Numbers with a point. */

/* The digits from one place on, and zeros where there are none. */
static void put_digits(struct sink *to, const struct digits *from, int first, int count)
{
    for (; count > 0; first++, count--)
        put(to, (char)('0' + (first >= 0 && first < from->count ? from->digit[first] : 0)));
}

static void put_exponent(struct sink *to, char letter, int exponent, int least)
{
    char digits[6];
    int at = sizeof digits;
    put(to, letter);
    put(to, exponent < 0 ? '-' : '+');
    for (int rest = exponent < 0 ? -exponent : exponent; rest > 0 || at > (int)sizeof digits - least; rest /= 10)
        digits[--at] = (char)('0' + rest % 10);
    put_bytes(to, digits + at, (int)sizeof digits - at);
}

static void put_fixed(struct sink *to, const struct format *how, const struct digits *from, int places)
{
    int whole = from->point > 0 ? from->point : 1, has_point = places > 0 || how->is_other;
    int behind = put_front(to, how, "", whole + has_point + places);
    put_digits(to, from, from->point > 0 ? 0 : from->point - 1, whole);
    if (has_point)
        put(to, '.');
    put_digits(to, from, from->point, places);
    put_many(to, ' ', behind);
}

static void put_scientific(struct sink *to, const struct format *how, const struct digits *from, int places)
{
    int exponent = from->count > 0 ? from->point - 1 : 0, has_point = places > 0 || how->is_other;
    int behind = put_front(to, how, "", 1 + has_point + places + (exponent > -100 && exponent < 100 ? 4 : 5));
    put_digits(to, from, 0, 1);
    if (has_point)
        put(to, '.');
    put_digits(to, from, 1, places);
    put_exponent(to, how->letter < 'a' ? 'E' : 'e', exponent, 2);
    put_many(to, ' ', behind);
}

/* The shorter of the two, by the rule of %g. */
static void put_general(struct sink *to, const struct format *how, struct digits *from, int places)
{
    int exponent = from->count > 0 ? from->point - 1 : 0, wanted = places;
    if (!how->is_other) {
        for (wanted = from->count; wanted > 1 && from->digit[wanted - 1] == 0;)
            wanted--;
        wanted = wanted > 0 ? wanted : 1;
    }
    if (exponent < -4 || exponent >= places)
        put_scientific(to, how, from, wanted - 1);
    else
        put_fixed(to, how, from, wanted - 1 > exponent ? wanted - 1 - exponent : 0);
}

/* The bits themselves, in figures of four. */
static void put_hexadecimal(struct sink *to, const struct format *how, double number)
{
    uint64_t bits = bsp_bits_of(number), part = bits & 0xfffffffffffffu;
    int exponent = (int)(bits >> 52) & 0x7ff, places = how->precision, behind, has_point, size = 0;
    const char *figures = how->letter == 'A' ? "0123456789ABCDEF" : "0123456789abcdef";
    if (exponent > 0)
        part |= (uint64_t)1 << 52;
    exponent = exponent > 0 ? exponent - 1023 : part > 0 ? -1022 : 0;
    if (places >= 0 && places < 13) {
        int dropped = 4 * (13 - places);
        uint64_t half = (uint64_t)1 << (dropped - 1), rest = part & (2 * half - 1);
        part -= rest;
        if (rest > half || (rest == half && (part >> dropped & 1) != 0))
            part += 2 * half;
    } else if (places < 0)
        for (places = 13; places > 0 && (part >> (4 * (13 - places)) & 15) == 0;)
            places--;
    has_point = places > 0 || how->is_other;
    for (int rest = exponent < 0 ? -exponent : exponent; rest > 0 || size == 0; rest /= 10)
        size++;
    behind = put_front(to, how, how->letter == 'A' ? "0X" : "0x", 1 + has_point + places + 2 + size);
    put(to, figures[part >> 52]);
    if (has_point)
        put(to, '.');
    for (int i = 1; i <= places; i++)
        put(to, i <= 13 ? figures[part >> (52 - 4 * i) & 15] : '0');
    put_exponent(to, how->letter == 'A' ? 'P' : 'p', exponent, 1);
    put_many(to, ' ', behind);
}

/* It stays a function: its digits would take room of the stack in each printf. */
__attribute__((noinline)) static void put_double(struct sink *to, struct format *how, double number)
{
    struct digits digits;
    int is_large = how->letter < 'a', places = how->precision < 0 ? 6 : how->precision;
    if (bsp_bits_of(number) >> 63 != 0) {
        how->sign = '-';
        number = bsp_double_of(bsp_bits_of(number) & ~((uint64_t)1 << 63));
    }
    if (bsp_bits_of(number) >> 52 == 0x7ff) {
        int is_number = bsp_bits_of(number) << 12 == 0, behind;
        how->is_zero = 0;
        behind = put_front(to, how, "", 3);
        put_bytes(to, is_number ? (is_large ? "INF" : "inf") : is_large ? "NAN" : "nan", 3);
        put_many(to, ' ', behind);
        return;
    }
    switch (how->letter | 32) {
    case 'a':
        put_hexadecimal(to, how, number);
        return;
    case 'f':
        bsp_digits_of(&digits, number, places, 1);
        put_fixed(to, how, &digits, places);
        return;
    case 'e':
        bsp_digits_of(&digits, number, places + 1, 0);
        put_scientific(to, how, &digits, places);
        return;
    default:
        places = places > 0 ? places : 1;
        bsp_digits_of(&digits, number, places, 0);
        put_general(to, how, &digits, places);
    }
}

/* Texts. */

static void put_string(struct sink *to, struct format *how, const char *text)
{
    int count = 0;
    if (text == NULL)
        text = "(null)";
    while ((how->precision < 0 || count < how->precision) && text[count] != '\0')
        count++;
    put_text(to, how, text, count);
}

/* A text of wide characters, of which the locale C has those below 128. */
static void put_wide(struct sink *to, struct format *how, const wchar_t *text, int most)
{
    int count = 0, behind;
    for (; (most < 0 || count < most) && text[count] != L'\0'; count++)
        if ((uint32_t)text[count] > 127) {
            errno = EILSEQ;
            to->is_bad = 1;
            return;
        }
    how->sign = '\0';
    how->is_zero = 0;
    behind = put_front(to, how, "", count);
    for (int i = 0; i < count; i++)
        put(to, (char)text[i]);
    put_many(to, ' ', behind);
}

static void store_count(void *to, int size, int count)
{
    switch (size) {
    case 1:
        *(int8_t *)to = (int8_t)count;
        break;
    case 2:
        *(int16_t *)to = (int16_t)count;
        break;
    case 8:
        *(int64_t *)to = count;
        break;
    default:
        *(int32_t *)to = count;
    }
}

/* Formats. */

/* Numbers of a format, without those that leave no room for what stands beside them. */
enum { MOST_NUMBER = INT_MAX - 2 * MOST_DIGITS };

static inline const char *read_digits(const char *at, int *number)
{
    for (*number = 0; *at >= '0' && *at <= '9'; at++)
        *number = *number > MOST_NUMBER / 10 ? MOST_NUMBER + 1 : *number * 10 + *at - '0';
    return at;
}

/* A width or a precision that is an argument, behind its star. */
__attribute__((noinline)) static const char *read_argument(const char *at, int *number, struct arguments *from)
{
    int position = 0;
    if (from->all != NULL)
        at = read_digits(at, &position) + 1;
    *number = (int)take_word(from, position);
    return at;
}

/* A width or a precision. Answers what stands behind it. */
static inline const char *read_number(const char *at, int *number, struct arguments *from)
{
    return *at == '*' ? read_argument(at + 1, number, from) : read_digits(at, number);
}

static const char *read_flags(struct format *how, const char *at)
{
    for (;; at++)
        switch (*at) {
        case '-':
            how->is_left = 1;
            break;
        case '0':
            how->is_zero = 1;
            break;
        case '+':
            how->sign = '+';
            break;
        case ' ':
            how->sign = how->sign == '+' ? '+' : ' ';
            break;
        case '#':
            how->is_other = 1;
            break;
        case '\'':
            /* The locale C has nothing between thousands. */
            break;
        default:
            return at;
        }
}

static const char *read_size(struct format *how, const char *at)
{
    switch (*at++) {
    case 'h':
        how->size = *at == 'h' ? 1 : 2;
        return *at == 'h' ? at + 1 : at;
    case 'l':
        how->size = *at == 'l' ? 8 : 4;
        return *at == 'l' ? at + 1 : at;
    case 'j':
    case 'q':
        how->size = 8;
        return at;
    case 'z':
    case 't':
        how->size = 4;
        return at;
    case 'L':
        how->size = 16;
        return at;
    default:
        return at - 1;
    }
}

/* Reads what stands behind %, up to the letter. A position of the first argument that has one is left to be read again. */
static const char *read_format(struct format *how, const char *at, struct arguments *from)
{
    memset(how, 0, sizeof *how);
    for (;; at++) {
        at = read_flags(how, at);
        at = read_number(at, &how->width, from);
        if (*at != '$')
            break;
        how->position = how->width;
        if (from->all == NULL)
            return at;
    }
    if (how->width < 0) {
        how->is_left = 1;
        how->width = how->width < -MOST_NUMBER ? MOST_NUMBER + 1 : -how->width;
    }
    how->precision = -1;
    if (*at == '.') {
        at = read_number(at + 1, &how->precision, from);
        how->precision = how->precision < 0 ? -1 : how->precision;
    }
    return read_size(how, at);
}

/* Positions of arguments. */

enum { MOST_POSITIONS = 32 };

static enum kind kind_of(char letter, int size)
{
    if (strchr("aefgAEFG", letter) != NULL)
        return size == 16 ? LONG_DOUBLE : DOUBLE;
    return size == 8 && strchr("diuxXo", letter) != NULL ? LONG : WORD;
}

/* What stands from one place of a conversion on: a position, which a width or a precision may have too, or something else. Answers what is
   behind it. */
static const char *pass(const char *at, int *position, int *is_star)
{
    const char *behind;
    *is_star = *at == '*';
    behind = read_digits(at + *is_star, position);
    if (behind > at && *behind == '$')
        return behind + 1;
    *position = *is_star ? MOST_POSITIONS + 1 : 0;
    return behind > at ? behind : at + 1;
}

/* The kinds of the arguments that a format names, and the greatest position; 0 where one has none, or it is too great. */
static int find_kinds(unsigned char *kinds, const char *at)
{
    int most = 0;
    while ((at = strchr(at, '%')) != NULL) {
        int own = 0, size = 4;
        for (at++; *at != '\0' && strchr(LETTERS, *at) == NULL;) {
            const char *begin = at;
            int position, is_star;
            at = pass(at, &position, &is_star);
            if (position > MOST_POSITIONS)
                return 0;
            most = position > most ? position : most;
            own = position > 0 && !is_star ? position : own;
            size = *begin == 'L' ? 16 : *begin == 'j' || *begin == 'q' || (*begin == 'l' && *at == 'l') ? 8 : size;
        }
        if (*at == '\0' || (own == 0 && *at != '%'))
            return 0;
        kinds[own] = (unsigned char)kind_of(*at++, size);
    }
    return most;
}

/* Takes all arguments of a format whose conversions name them. */
__attribute__((cold, noinline)) static void take_all(struct sink *to, union argument *all, struct arguments *from, const char *format)
{
    unsigned char kinds[MOST_POSITIONS + 1] = {0};
    int count = find_kinds(kinds, format);
    if (count == 0) {
        errno = EINVAL;
        to->is_bad = 1;
    }
    for (int i = 1; i <= count; i++)
        switch ((enum kind)kinds[i]) {
        case WORD:
            all[i].word = va_arg(from->rest, uint32_t);
            break;
        case LONG:
            all[i].whole = va_arg(from->rest, uint64_t);
            break;
        case DOUBLE:
            all[i].number = va_arg(from->rest, double);
            break;
        case LONG_DOUBLE:
            all[i].number = bsp_nearest_double(va_arg(from->rest, long double));
        }
    from->all = all;
}

static void put_character(struct sink *to, struct format *how, struct arguments *from)
{
    wchar_t wide = (wchar_t)take_word(from, how->position);
    char byte = (char)wide;
    if (how->size == 4 && wide != L'\0')
        put_wide(to, how, &wide, 1);
    else
        put_text(to, how, &byte, 1);
}

static void put_converted(struct sink *to, struct format *how, struct arguments *from)
{
    switch (how->letter) {
    case 'd':
    case 'i':
        put_signed(to, how, from);
        return;
    case 'u':
    case 'x':
    case 'X':
    case 'o':
    case 'p':
        put_unsigned(to, how, from);
        return;
    case 'S':
        how->size = 4;
        /* fallthrough */
    case 's':
        if (how->size == 4)
            put_wide(to, how, take_place(from, how->position), how->precision);
        else
            put_string(to, how, take_place(from, how->position));
        return;
    case 'C':
        how->size = 4;
        /* fallthrough */
    case 'c':
        put_character(to, how, from);
        return;
    case '%':
        put(to, '%');
        return;
    case 'n':
        store_count(take_place(from, how->position), how->size, to->count);
        return;
    default:
        put_double(to, how, take_double(from, how));
    }
}

int vfprintf(FILE *file, const char *format, va_list arguments)
{
    struct sink to = {file, 0, 0, '\0'};
    struct arguments from = {.all = NULL};
    union argument all[MOST_POSITIONS + 1];
    if (file->put == NULL)
        return EOF;
    va_copy(from.rest, arguments);
    while (*format != '\0' && !to.is_bad) {
        struct format how;
        const char *begin = format;
        if (*format != '%') {
            put(&to, *format++);
            continue;
        }
        format = read_format(&how, format + 1, &from);
        how.letter = *format;
        if (how.letter == '$') {
            take_all(&to, all, &from, begin);
            format = begin;
        } else if (how.width > MOST_NUMBER || how.precision > MOST_NUMBER) {
            errno = EOVERFLOW;
            to.is_bad = 1;
        } else if (how.letter == '\0' || strchr(LETTERS, how.letter) == NULL) {
            /* No conversion: it stands as it is. */
            put(&to, '%');
            format = begin + 1;
        } else {
            put_converted(&to, &how, &from);
            format++;
        }
    }
    va_end(from.rest);
    return to.is_bad ? EOF : to.count;
}
