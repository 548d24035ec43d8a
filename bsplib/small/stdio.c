/* Formatted output and input, for programs without a C library: picolibc's are larger, and have floating point. */
#include <stdint.h>
#include <stdio.h>
#include <string.h>

#include "../src/machine.h"

/* Below the streams, as POSIX has them. Weak, since a program may have functions of these names. */
__attribute__((weak)) int write(int file, const void *bytes, size_t count)
{
    if (file != 1 && file != 2)
        return -1;
    bsp_stdio_write(file, bytes, count);
    return (int)count;
}

__attribute__((weak)) int read(int file, void *bytes, size_t count)
{
    return file == 0 ? bsp_input_read(bytes, (int)count) : -1;
}

struct bsp_stream {
    int (*put)(char byte);
};
static FILE input = {NULL}, output = {bsp_stdio_put}, errors = {bsp_error_put};
FILE *const stdin = &input, *const stdout = &output, *const stderr = &errors;

/* Where formatted bytes go: to the stream where `at` is NULL, else to the `left` bytes from there on. */
struct sink {
    const FILE *file;
    char *at;
    size_t left;
    int count;
};

static void put(struct sink *to, char byte)
{
    to->count++;
    if (to->at == NULL)
        to->file->put(byte);
    else if (to->left > 0) {
        *to->at++ = byte;
        to->left--;
    }
}

static void put_padding(struct sink *to, char byte, int count)
{
    while (count-- > 0)
        put(to, byte);
}

/* How a length is spelled: the number of bytes of the whole number that it is of. */
static int length_of(const char **format)
{
    switch (*(*format)++) {
    case 'h':
        if (**format != 'h')
            return 2;
        (*format)++;
        return 1;
    case 'l':
        if (**format != 'l')
            return 4;
        (*format)++;
        return 8;
    case 'j':
        return 8;
    case 'z':
    case 't':
        return 4;
    default:
        (*format)--;
        return 0;
    }
}

static void format_into(struct sink *to, const char *format, va_list *arguments)
{
    while (*format != '\0') {
        int is_left = 0, is_zero = 0, is_other = 0, width = 0, precision = -1, length, count = 0, leading = 0;
        char sign = '\0', digits[24];
        const char *text = digits + sizeof digits, *prefix = "";
        if (*format != '%') {
            put(to, *format++);
            continue;
        }
        for (format++;; format++) {
            if (*format == '-')
                is_left = 1;
            else if (*format == '0')
                is_zero = 1;
            else if (*format == '+')
                sign = '+';
            else if (*format == ' ')
                sign = sign == '+' ? '+' : ' ';
            else if (*format == '#')
                is_other = 1;
            else
                break;
        }
        if (*format == '*') {
            format++;
            width = va_arg(*arguments, int);
            if (width < 0) {
                is_left = 1;
                width = -width;
            }
        } else
            while (*format >= '0' && *format <= '9')
                width = width * 10 + *format++ - '0';
        if (*format == '.') {
            precision = 0;
            format++;
            if (*format == '*') {
                format++;
                precision = va_arg(*arguments, int);
            } else
                while (*format >= '0' && *format <= '9')
                    precision = precision * 10 + *format++ - '0';
        }
        length = length_of(&format);
        switch (*format) {
        case '%':
        case 'c':
            digits[0] = *format == 'c' ? (char)va_arg(*arguments, int) : '%';
            text = digits;
            count = 1;
            sign = '\0';
            is_zero = 0;
            break;
        case 's':
            text = va_arg(*arguments, const char *);
            while ((precision < 0 || count < precision) && text[count] != '\0')
                count++;
            sign = '\0';
            is_zero = 0;
            break;
        case 'd':
        case 'i':
        case 'u':
        case 'x':
        case 'X':
        case 'o':
        case 'p': {
            uint64_t number;
            unsigned base = *format == 'x' || *format == 'X' || *format == 'p' ? 16 : *format == 'o' ? 8 : 10;
            const char *figures = *format == 'X' ? "0123456789ABCDEF" : "0123456789abcdef";
            char *digit = digits + sizeof digits;
            if (*format == 'd' || *format == 'i') {
                int64_t given = length == 8 ? va_arg(*arguments, int64_t) : va_arg(*arguments, int32_t);
                given = length == 1 ? (int8_t)given : length == 2 ? (int16_t)given : given;
                sign = given < 0 ? '-' : sign;
                number = given < 0 ? 0 - (uint64_t)given : (uint64_t)given;
            } else {
                number = length == 8 ? va_arg(*arguments, uint64_t) : va_arg(*arguments, uint32_t);
                number = length == 1 ? (uint8_t)number : length == 2 ? (uint16_t)number : number;
                sign = '\0';
            }
            if ((is_other || *format == 'p') && base == 16 && (number > 0 || *format == 'p'))
                prefix = *format == 'X' ? "0X" : "0x";
            /* Most numbers fit a word, whose division is one instruction. */
            for (; number > 0xffffffff; number /= base)
                *--digit = figures[number % base];
            for (uint32_t rest = (uint32_t)number; rest > 0; rest /= base)
                *--digit = figures[rest % base];
            text = digit;
            count = (int)(digits + sizeof digits - digit);
            is_zero = is_zero && !is_left && precision < 0;
            if (is_other && base == 8 && precision <= count)
                precision = count + 1;
            leading = (precision < 0 ? 1 : precision) - count;
            leading = leading > 0 ? leading : 0;
            break;
        }
        default:
            bsp_stop("this conversion of printf needs the C library: build without --small");
        }
        format++;
        width -= count + leading + (sign != '\0') + (int)strlen(prefix);
        if (!is_left && !is_zero)
            put_padding(to, ' ', width);
        if (sign != '\0')
            put(to, sign);
        while (*prefix != '\0')
            put(to, *prefix++);
        if (is_zero)
            put_padding(to, '0', width);
        put_padding(to, '0', leading);
        while (count-- > 0)
            put(to, *text++);
        if (is_left)
            put_padding(to, ' ', width);
    }
}

int vfprintf(FILE *file, const char *format, va_list arguments)
{
    struct sink to = {file, NULL, 0, 0};
    va_list copy;
    va_copy(copy, arguments);
    format_into(&to, format, &copy);
    va_end(copy);
    return to.count;
}

int vsnprintf(char *to, size_t size, const char *format, va_list arguments)
{
    char nothing;
    struct sink sink = {NULL, size > 0 ? to : &nothing, size > 0 ? size - 1 : 0, 0};
    va_list copy;
    va_copy(copy, arguments);
    format_into(&sink, format, &copy);
    va_end(copy);
    if (size > 0)
        *sink.at = '\0';
    return sink.count;
}

int vprintf(const char *format, va_list arguments)
{
    return vfprintf(stdout, format, arguments);
}

int printf(const char *format, ...)
{
    int count;
    va_list arguments;
    va_start(arguments, format);
    count = vprintf(format, arguments);
    va_end(arguments);
    return count;
}

int fprintf(FILE *file, const char *format, ...)
{
    int count;
    va_list arguments;
    va_start(arguments, format);
    count = vfprintf(file, format, arguments);
    va_end(arguments);
    return count;
}

int snprintf(char *to, size_t size, const char *format, ...)
{
    int count;
    va_list arguments;
    va_start(arguments, format);
    count = vsnprintf(to, size, format, arguments);
    va_end(arguments);
    return count;
}

int fputs(const char *text, FILE *file)
{
    while (*text != '\0')
        file->put(*text++);
    return 0;
}

int puts(const char *text)
{
    fputs(text, stdout);
    bsp_stdio_put('\n');
    return 0;
}

int putchar(int byte)
{
    bsp_stdio_put((char)byte);
    return (unsigned char)byte;
}

int fflush(FILE *file)
{
    (void)file;
    bsp_stdio_flush();
    return 0;
}

/* The byte that was looked at and not taken; -2 where there is none. */
static int looked_at = -2;

int getchar(void)
{
    int byte = looked_at;
    looked_at = -2;
    return byte == -2 ? bsp_stdio_get() : byte;
}

static int look(void)
{
    if (looked_at == -2)
        looked_at = bsp_stdio_get();
    return looked_at;
}

static int is_blank(int byte)
{
    return byte == ' ' || (byte >= '\t' && byte <= '\r');
}

char *fgets(char *to, int size, FILE *file)
{
    int count = 0;
    (void)file;
    if (size <= 0)
        return NULL;
    while (count < size - 1) {
        int byte = getchar();
        if (byte == EOF)
            break;
        to[count++] = (char)byte;
        if (byte == '\n')
            break;
    }
    if (count == 0 && size > 1)
        return NULL;
    to[count] = '\0';
    return to;
}

static void store(va_list *arguments, int length, uint64_t number)
{
    void *to = va_arg(*arguments, void *);
    switch (length) {
    case 1:
        *(uint8_t *)to = (uint8_t)number;
        break;
    case 2:
        *(uint16_t *)to = (uint16_t)number;
        break;
    case 8:
        *(uint64_t *)to = number;
        break;
    default:
        *(uint32_t *)to = (uint32_t)number;
    }
}

static int digit_of(int byte, int base)
{
    int digit = byte >= '0' && byte <= '9' ? byte - '0' : (byte | 32) >= 'a' && (byte | 32) <= 'f' ? (byte | 32) - 'a' + 10 : 99;
    return digit < base ? digit : -1;
}

int scanf(const char *format, ...)
{
    int stored = 0;
    va_list arguments;
    va_start(arguments, format);
    for (; *format != '\0'; format++) {
        int is_dropped = 0, width = 0, length, taken = 0;
        if (is_blank(*format)) {
            while (is_blank(look()))
                getchar();
            continue;
        }
        if (*format != '%') {
            if (look() != (unsigned char)*format) {
                stored = stored > 0 || look() != EOF ? stored : EOF;
                break;
            }
            getchar();
            continue;
        }
        format++;
        if (*format == '*') {
            is_dropped = 1;
            format++;
        }
        while (*format >= '0' && *format <= '9')
            width = width * 10 + *format++ - '0';
        length = length_of(&format);
        if (*format != 'c')
            while (is_blank(look()))
                getchar();
        if (look() == EOF) {
            stored = stored > 0 ? stored : EOF;
            break;
        }
        if (*format == 'c' || *format == 's') {
            char *to = is_dropped ? NULL : va_arg(arguments, char *);
            if (width == 0)
                width = *format == 'c' ? 1 : 0x7fffffff;
            for (; taken < width && look() != EOF && !(*format == 's' && is_blank(look())); taken++) {
                int byte = getchar();
                if (to != NULL)
                    *to++ = (char)byte;
            }
            if (*format == 's' && to != NULL)
                *to = '\0';
        } else if (*format == 'd' || *format == 'i' || *format == 'u' || *format == 'x') {
            uint64_t number = 0;
            int is_negative = look() == '-', base = *format == 'x' ? 16 : 10, digits = 0;
            width = width == 0 ? 0x7fffffff : width;
            if (look() == '-' || look() == '+') {
                getchar();
                width--;
            }
            /* A zero in front may begin 0x, and says of %i that the number is octal or hexadecimal. */
            if (width > 0 && look() == '0' && (base == 16 || *format == 'i')) {
                getchar();
                width--;
                digits++;
                base = base == 16 ? 16 : 8;
                if (width > 0 && (look() | 32) == 'x') {
                    getchar();
                    width--;
                    base = 16;
                }
            }
            while (width-- > 0 && digit_of(look(), base) >= 0) {
                int digit = digit_of(getchar(), base);
                number = number * (unsigned)base + (unsigned)digit;
                digits++;
            }
            if (digits == 0)
                break;
            if (!is_dropped)
                store(&arguments, length, is_negative ? 0 - number : number);
        } else if (*format == '%') {
            if (look() != '%')
                break;
            getchar();
            continue;
        } else
            bsp_stop("this conversion of scanf needs the C library: build without --small");
        stored += !is_dropped;
    }
    va_end(arguments);
    return stored;
}
