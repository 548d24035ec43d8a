/* What the programs of this folder share. Each reads calls from standard input, a line each, makes them, and writes a line for each with
   what came of it. The host and the node are given the same lines, and have to write the same. What is read and written here goes through
   getchar and fputs alone, which the small library has too.

   A line is words with a blank between them: numbers in decimal digits, doubles by the 16 hexadecimal digits of their bits, texts as a
   point and the hexadecimal digits of their bytes, and `-` for NULL. */
#ifndef CALLS_H
#define CALLS_H

#include <stdint.h>
#include <stdio.h>
#include <stdlib.h>
#include <string.h>
#ifndef SMALL
#include <errno.h>
#endif

#ifdef __riscv
typedef long word_t;
typedef unsigned long uword_t;
#else
/* A long of the node has 32 bits. */
typedef int32_t word_t;
typedef uint32_t uword_t;
#endif

enum { LONGEST_LINE = 1 << 17, SHOWN_BYTES = 160 };

static char given[LONGEST_LINE], *given_next;
static char said[LONGEST_LINE];
static size_t said_count;

/* Reads the next line. Answers 0 where there is none. */
static inline int read_call(void)
{
    size_t count = 0;
    int byte;
    while ((byte = getchar()) != EOF && byte != '\n' && count + 1 < sizeof given)
        given[count++] = (char)byte;
    given[count] = '\0';
    given_next = given;
    said_count = 0;
    return byte != EOF;
}

/* The next word of the line, or an empty one. */
static inline char *read_word(void)
{
    char *word = given_next;
    while (*given_next != '\0' && *given_next != ' ')
        given_next++;
    if (*given_next == ' ')
        *given_next++ = '\0';
    return word;
}

static inline int has_word(void)
{
    return *given_next != '\0';
}

static inline int64_t read_number(void)
{
    const char *at = read_word();
    int is_negative = *at == '-';
    uint64_t number = 0;
    for (at += is_negative; *at >= '0' && *at <= '9'; at++)
        number = 10 * number + (uint64_t)(*at - '0');
    return (int64_t)(is_negative ? 0 - number : number);
}

static inline int value_of_figure(int figure)
{
    return figure <= '9' ? figure - '0' : (figure | 32) - 'a' + 10;
}

static inline double read_real(void)
{
    uint64_t bits = 0;
    double real;
    for (const char *at = read_word(); *at != '\0'; at++)
        bits = 16 * bits + (uint64_t)value_of_figure(*at);
    memcpy(&real, &bits, sizeof real);
    return real;
}

/* The text of a word, in its own place with a zero byte behind it, and how many bytes it has. NULL for `-`. */
static inline char *read_bytes(size_t *count)
{
    char *word = read_word(), *to = word;
    *count = 0;
    if (*word == '-')
        return NULL;
    for (const char *at = word + 1; *at != '\0'; at += 2, ++*count)
        *to++ = (char)(16 * value_of_figure(at[0]) + value_of_figure(at[1]));
    *to = '\0';
    return word;
}

static inline char *read_text(void)
{
    size_t count;
    return read_bytes(&count);
}

static inline void say_byte(char byte)
{
    if (said_count + 2 < sizeof said)
        said[said_count++] = byte;
}

/* Puts a blank and a word behind what is said. */
static inline void say(const char *text)
{
    if (said_count > 0)
        say_byte(' ');
    while (*text != '\0')
        say_byte(*text++);
}

static inline void say_number(int64_t number)
{
    char digits[24], *at = digits + sizeof digits - 1;
    uint64_t rest = number < 0 ? 0 - (uint64_t)number : (uint64_t)number;
    *at = '\0';
    do
        *--at = (char)('0' + rest % 10);
    while ((rest /= 10) > 0);
    if (number < 0)
        *--at = '-';
    say(at);
}

static inline void say_hexadecimal(uint64_t number, int figures)
{
    char digits[17] = "";
    for (int i = figures - 1; i >= 0; i--, number >>= 4)
        digits[i] = "0123456789abcdef"[number & 15];
    say(digits);
}

/* What is no number has many patterns, of which C promises none. */
static inline void say_real(double real)
{
    uint64_t bits;
    memcpy(&bits, &real, sizeof bits);
    if (real != real)
        say("nan");
    else
        say_hexadecimal(bits, 16);
}

static inline void say_escaped(unsigned char byte)
{
    if (byte >= ' ' && byte < 127 && byte != '"' && byte != '\\') {
        say_byte((char)byte);
        return;
    }
    say_byte('\\');
    say_byte("0123456789abcdef"[byte >> 4]);
    say_byte("0123456789abcdef"[byte & 15]);
}

/* Bytes in quotation marks. Of many the first stand there, and a sum of all. */
static inline void say_bytes(const void *bytes, size_t count)
{
    const unsigned char *byte = (const unsigned char *)bytes;
    uint32_t sum = 2166136261u;
    size_t shown = count > SHOWN_BYTES ? (size_t)SHOWN_BYTES : count;
    say("\"");
    for (size_t i = 0; i < shown; i++)
        say_escaped(byte[i]);
    say_byte('"');
    if (shown == count)
        return;
    for (size_t i = 0; i < count; i++)
        sum = (sum ^ byte[i]) * 16777619u;
    say("..");
    say_number((int64_t)count);
    say_hexadecimal(sum, 8);
}

static inline void say_text(const char *text)
{
    if (text == NULL)
        say("NULL");
    else
        say_bytes(text, strlen(text));
}

/* Where a pointer leads in an area, as an offset. */
static inline void say_place(const void *place, const void *from)
{
    if (place == NULL)
        say("NULL");
    else
        say_number((int64_t)((const char *)place - (const char *)from));
}

static inline void say_sign(int number)
{
    say(number < 0 ? "-" : number > 0 ? "+" : "0");
}

#ifndef SMALL
/* The reason of a failure, by a name where C or POSIX says which it is. */
static inline void say_errno(void)
{
    static const struct {
        int number;
        const char *name;
    } names[] = {{0, "none"}, {ERANGE, "ERANGE"}, {EINVAL, "EINVAL"}, {EDOM, "EDOM"}, {EILSEQ, "EILSEQ"}, {ENOENT, "ENOENT"},
        {EBADF, "EBADF"}, {EEXIST, "EEXIST"}, {ENOMEM, "ENOMEM"}, {EOVERFLOW, "EOVERFLOW"}, {ESPIPE, "ESPIPE"}};
    for (size_t i = 0; i < sizeof names / sizeof *names; i++)
        if (names[i].number == errno) {
            say(names[i].name);
            return;
        }
    say("errno");
    say_number(errno);
}
#endif

/* Writes what was said as a line. */
static inline void end_call(void)
{
    said[said_count++] = '\n';
    said[said_count] = '\0';
    fputs(said, stdout);
#ifndef __riscv
    /* A node writes each line as it ends. */
    fflush(stdout);
#endif
    said_count = 0;
}

#endif
