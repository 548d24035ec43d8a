/* With bspcc --check: stops the node at undefined behaviour, with a line that has the superstep, the place and the operands. With bspcc
   --check=long the calls have no `_abort` in their names. They note for bsprun what does not fit into 32 bits, and may fit into 64, once
   for each place, and the node goes on. The compiler makes these calls and lays out their operands. GCC has no library with them for this
   machine. */
#include <stdint.h>

#include "machine.h"

struct place {
    const char *file;
    uint32_t line, column;
};

enum { WHOLE = 0, FLOATING = 1, WITH_SIGN = 1 };

/* Of a whole number `info` tells whether it has a sign, and above that how many bits it has, as a power of 2; of a number with a point
   it is how many bits it has. The name stands between quotes. */
struct type {
    uint16_t kind, info;
    char name[];
};

/* A value that fits a word stands by itself, and any other where it points to. */
typedef uintptr_t value;

/* The line that is being made, and how many of its bytes stand before the place. */
static struct {
    char text[MOST_RECORD_BYTES];
    unsigned count, place;
} line;

/* It stays a function: put into others, it would have addresses behind the end of a text, of which the linker makes wrong ones. */
__attribute__((noinline)) static void add(const char *text)
{
    while (*text != '\0' && line.count < sizeof line.text - 1)
        line.text[line.count++] = *text++;
}

static void add_number(uint64_t number, unsigned base)
{
    char digits[24];
    unsigned at = sizeof digits - 1;
    digits[at] = '\0';
    do {
        digits[--at] = "0123456789abcdef"[number % base];
        number /= base;
    } while (number > 0);
    add(digits + at);
}

static unsigned bits_of(const struct type *type)
{
    return type->kind == WHOLE ? 1u << (type->info >> 1) : type->info;
}

static int64_t whole_of(const struct type *type, value it)
{
    unsigned bits = bits_of(type);
    uint64_t number = bits > 32 ? *(const uint64_t *)it : it;
    unsigned above = 64 - (bits < 64 ? bits : 64);
    return type->info & WITH_SIGN ? (int64_t)(number << above) >> above : (int64_t)(number << above >> above);
}

static void add_value(const struct type *type, value it)
{
    int64_t number = whole_of(type, it);
    int is_negative = (type->info & WITH_SIGN) && number < 0;
    add(is_negative ? "-" : "");
    add_number(is_negative ? 0 - (uint64_t)number : (uint64_t)number, 10);
}

static void add_type(const struct type *type)
{
    add(type->name);
    if (type->kind == WHOLE) {
        add(", which has ");
        add_number(bits_of(type), 10);
        add(" bits here");
    }
}

static void begin(const struct place *place)
{
    line.count = 0;
    add("superstep ");
    add_number((unsigned)bsp_superstep, 10);
    add(", ");
    line.place = line.count;
    if (place->file != NULL) {
        add(place->file);
        add(":");
        add_number(place->line, 10);
        add(": ");
    }
}

__attribute__((noreturn)) static void end(void)
{
    line.text[line.count] = '\0';
    bsp_stop(line.text);
}

static void note(const struct place *place, unsigned column)
{
    line.text[line.count] = '\0';
    bsp_note(NOTE_LONG, __builtin_return_address(0), place->line, column, line.text + line.place);
}

/* The column of a place of which a note is to be made now, or 0 where one was made, or the type has not just 32 bits. */
static unsigned take_column(struct place *place, const struct type *type)
{
    unsigned column = type->kind == WHOLE && bits_of(type) == 32 ? place->column : 0;
    if (column != 0)
        place->column = 0;
    return column;
}

struct typed {
    struct place place;
    const struct type *type;
};

static void overflow(const struct typed *at, value left, const char *sign, value right)
{
    begin(&at->place);
    add_value(at->type, left);
    add(sign);
    add_value(at->type, right);
    add(" does not fit into ");
    add_type(at->type);
}

static void note_overflow(struct typed *at, value left, const char *sign, value right)
{
    unsigned column = take_column(&at->place, at->type);
    if (column != 0) {
        overflow(at, left, sign, right);
        note(&at->place, column);
    }
}

void __ubsan_handle_add_overflow_abort(const struct typed *at, value left, value right)
{
    overflow(at, left, " + ", right);
    end();
}

void __ubsan_handle_add_overflow(struct typed *at, value left, value right)
{
    note_overflow(at, left, " + ", right);
}

void __ubsan_handle_sub_overflow_abort(const struct typed *at, value left, value right)
{
    overflow(at, left, " - ", right);
    end();
}

void __ubsan_handle_sub_overflow(struct typed *at, value left, value right)
{
    note_overflow(at, left, " - ", right);
}

void __ubsan_handle_mul_overflow_abort(const struct typed *at, value left, value right)
{
    overflow(at, left, " * ", right);
    end();
}

void __ubsan_handle_mul_overflow(struct typed *at, value left, value right)
{
    note_overflow(at, left, " * ", right);
}

static void negation(const struct typed *at, value of)
{
    begin(&at->place);
    add("-(");
    add_value(at->type, of);
    add(") does not fit into ");
    add_type(at->type);
}

void __ubsan_handle_negate_overflow_abort(const struct typed *at, value of)
{
    negation(at, of);
    end();
}

void __ubsan_handle_negate_overflow(struct typed *at, value of)
{
    unsigned column = take_column(&at->place, at->type);
    if (column != 0) {
        negation(at, of);
        note(&at->place, column);
    }
}

static int is_divided_by_0(const struct typed *at, value right)
{
    return at->type->kind != WHOLE || whole_of(at->type, right) == 0;
}

void __ubsan_handle_divrem_overflow_abort(const struct typed *at, value left, value right)
{
    if (is_divided_by_0(at, right)) {
        begin(&at->place);
        if (at->type->kind == WHOLE)
            add_value(at->type, left);
        else
            add("a number");
        add(" is divided by 0");
    } else
        overflow(at, left, " / ", right);
    end();
}

void __ubsan_handle_divrem_overflow(struct typed *at, value left, value right)
{
    if (!is_divided_by_0(at, right))
        note_overflow(at, left, " / ", right);
}

struct shift {
    struct place place;
    const struct type *left, *right;
};

static void shifted(const struct shift *at, value left, value right)
{
    int64_t count = whole_of(at->right, right);
    begin(&at->place);
    add_value(at->left, left);
    add(" is shifted by ");
    add_value(at->right, right);
    if (count >= 0 && count < (int64_t)bits_of(at->left) && whole_of(at->left, left) >= 0)
        add(", which does not fit into ");
    else
        add(", as ");
    add_type(at->left);
}

void __ubsan_handle_shift_out_of_bounds_abort(const struct shift *at, value left, value right)
{
    shifted(at, left, right);
    end();
}

/* A negative number that is shifted to the left is C's concern, and comes to the same elsewhere. */
static int is_right_in_64_bits(const struct shift *at, value left, value right)
{
    int64_t number = whole_of(at->left, left), count = whole_of(at->right, right);
    if (count < 0 || count > 63)
        return 0;
    return count > 31 ? number != 0 : (int64_t)((uint64_t)number << count) != (int32_t)((uint32_t)number << count);
}

void __ubsan_handle_shift_out_of_bounds(struct shift *at, value left, value right)
{
    unsigned column = is_right_in_64_bits(at, left, right) ? take_column(&at->place, at->left) : 0;
    if (column != 0) {
        shifted(at, left, right);
        note(&at->place, column);
    }
}

struct index {
    struct place place;
    const struct type *array, *index;
};

void __ubsan_handle_out_of_bounds_abort(const struct index *at, value index)
{
    begin(&at->place);
    add("index ");
    add_value(at->index, index);
    add(" lies outside of ");
    add(at->array->name);
    end();
}

struct pointed {
    struct place place;
    const struct type *type;
    unsigned char alignment, use;
};

void __ubsan_handle_type_mismatch_v1_abort(const struct pointed *at, value address)
{
    begin(&at->place);
    if (address == 0)
        add("NULL is used as the address of ");
    else {
        add("address 0x");
        add_number(address, 16);
        add(" is used, and is not a multiple of ");
        add_number(1u << at->alignment, 10);
        add(" as that of ");
    }
    add(at->type->name);
    add(address == 0 ? "" : " has to be");
    end();
}

void __ubsan_handle_vla_bound_not_positive_abort(const struct typed *at, value bound)
{
    begin(&at->place);
    add("an array has a length of ");
    add_value(at->type, bound);
    end();
}

void __ubsan_handle_builtin_unreachable(const struct typed *at)
{
    begin(&at->place);
    add("the program reached a place that it declares unreachable");
    end();
}

void __ubsan_handle_missing_return(const struct typed *at)
{
    begin(&at->place);
    add("a function ends without a value");
    end();
}

struct cast {
    struct place place;
    const struct type *from, *to;
};

static double number_of(const struct type *type, value it)
{
    union {
        uint32_t bits;
        float number;
    } as = {(uint32_t)it};
    if (bits_of(type) == 64)
        return *(const double *)it;
    return bits_of(type) == 32 ? (double)as.number : 0.0;
}

static void cast(const struct cast *at, double number)
{
    begin(&at->place);
    add(number != number ? "no number" : number < 0 ? "a number below 0" : "a number");
    if (number > -1e18 && number < 1e18) {
        add(" near ");
        add(number < 0 ? "-" : "");
        add_number((uint64_t)(number < 0 ? -number : number), 10);
    }
    add(" does not fit into ");
    add_type(at->to);
}

void __ubsan_handle_float_cast_overflow_abort(const struct cast *at, value from)
{
    cast(at, number_of(at->from, from));
    end();
}

void __ubsan_handle_float_cast_overflow(struct cast *at, value from)
{
    int has_sign = at->to->info & WITH_SIGN;
    double number = number_of(at->from, from);
    double least = has_sign ? -0x1p63 : 0.0, end_of_64_bits = has_sign ? 0x1p63 : 0x1p64;
    unsigned column = number >= least && number < end_of_64_bits ? take_column(&at->place, at->to) : 0;
    if (column != 0) {
        cast(at, number);
        note(&at->place, column);
    }
}
