/* What the instructions of operations.h have to answer, by the host's own arithmetic: SSE's on x86-64, which is IEEE 754's, with tininess
   after rounding as RISC-V has it, in the modes of <fenv.h>. What RISC-V decides by itself is written out: NaNs, boxes, the least and the
   greatest of two, signs, classes, conversions to words, and the mode that rounds ties away from zero.

   Usage: reference                         lists the operations, each with its number of special cases, and of rounding modes
          reference OPERATION SEED FIRST COUNT OPERANDS ANSWERS
                                            writes what guest.c reads, and what it has to write, into these files, of so many cases from
                                            one on: the first are all pairs (triples, or values) of the special values, then come those
                                            of some of them in each other rounding mode, and the rest are made by chance of the seed */
#include <fenv.h>
#include <inttypes.h>
#include <math.h>
#include <stdbool.h>
#include <stdint.h>
#include <stdio.h>
#include <stdlib.h>
#include <string.h>

enum { NX = 1, UF = 2, OF = 4, DZ = 8, NV = 16 };
/* The rounding modes, the field of an instruction that takes the one in frm, and how many values frm and that field have. */
enum { RNE, RTZ, RDN, RUP, RMM, ROUNDINGS, DYN = 7, CODES };
/* The host's. It has no RMM. */
static const int MODES[ROUNDINGS] = {FE_TONEAREST, FE_TOWARDZERO, FE_DOWNWARD, FE_UPWARD, FE_TONEAREST};

typedef struct {
    uint64_t result;
    unsigned flags;
} Answer;

/* What was raised since it was cleared, as fflags has it. */
static unsigned raised(void)
{
    int found = fetestexcept(FE_ALL_EXCEPT);
    return (found & FE_INEXACT ? NX : 0) | (found & FE_UNDERFLOW ? UF : 0) | (found & FE_OVERFLOW ? OF : 0)
        | (found & FE_DIVBYZERO ? DZ : 0) | (found & FE_INVALID ? NV : 0);
}

/* Random numbers: splitmix64, which is started anew for each case. */
static uint64_t state;

static uint64_t chance(void)
{
    uint64_t z = state += 0x9E3779B97F4A7C15;
    z = (z ^ z >> 30) * 0xBF58476D1CE4E5B9;
    z = (z ^ z >> 27) * 0x94D049BB133111EB;
    return z ^ z >> 31;
}

/* The single of a register: what is in no box of ones is the canonical NaN. */
static uint32_t unboxed(uint64_t x)
{
    return x >> 32 == UINT32_MAX ? (uint32_t)x : 0x7FC00000;
}

static uint64_t boxed(uint32_t x)
{
    return (uint64_t)UINT32_MAX << 32 | x;
}

#define FORMAT _d
#define REAL double
#define BITS uint64_t
#define DIGITS 52
#define MATH(name) name
#define OPERAND(x) (x)
#define RESULT(x) (x)
#include "format.h"
#undef FORMAT
#undef REAL
#undef BITS
#undef DIGITS
#undef MATH
#undef OPERAND
#undef RESULT

#define FORMAT _s
#define REAL float
#define BITS uint32_t
#define DIGITS 23
#define MATH(name) name##f
#define OPERAND(x) unboxed(x)
#define RESULT(x) boxed(x)
#include "format.h"

/* Conversions between formats, and moves. */

static void make_single(const volatile void *operand, volatile float *result)
{
    *result = (float)*(const volatile double *)operand;
}

static void widely_single(const volatile void *operand, volatile long double *result)
{
    *result = *(const volatile double *)operand;
}

static Answer single_of(double x, unsigned mode)
{
    static const Host_s host = {make_single, widely_single};
    volatile double operand = x;
    return rounded_s(&host, &operand, mode);
}

static Answer fcvt_s_d(const uint64_t *x, unsigned mode)
{
    return single_of(real_d(x[0]), mode);
}

/* A double has each word. */
static Answer fcvt_of_w_s(const uint64_t *x, unsigned mode)
{
    return single_of((int32_t)x[0], mode);
}

static Answer fcvt_of_wu_s(const uint64_t *x, unsigned mode)
{
    return single_of((uint32_t)x[0], mode);
}

static Answer fcvt_of_w_d(const uint64_t *x)
{
    return answer_d((int32_t)x[0], 0);
}

static Answer fcvt_of_wu_d(const uint64_t *x)
{
    return answer_d((uint32_t)x[0], 0);
}

static Answer fcvt_d_s(const uint64_t *x)
{
    volatile float value = real_s(unboxed(x[0]));
    volatile double result;
    feclearexcept(FE_ALL_EXCEPT);
    result = (double)value;
    return answer_d(result, raised());
}

static Answer fmv_x_w(const uint64_t *x)
{
    return (Answer){(uint32_t)x[0], 0};
}

static Answer fmv_w_x(const uint64_t *x)
{
    return (Answer){boxed((uint32_t)x[0]), 0};
}

enum kind { FX, XF, FF, XFF, FFF, FFFF };

/* It is made in a mode, or without one. */
static const struct {
    const char *name;
    enum kind kind;
    Answer (*make)(const uint64_t *);
    Answer (*round)(const uint64_t *, unsigned);
} OPERATIONS[] = {
#define OPERATION(name, kind, text) {#name, kind, name, NULL},
#define ROUNDED(name, kind, text) {#name, kind, NULL, name},
#include "operations.h"
};
enum { COUNT = sizeof OPERATIONS / sizeof OPERATIONS[0] };

/* Special values, each of which comes with both signs. */
static const double DOUBLES[] = {
    0.0, 0x1p-1074, 0x3p-1074, 0x1p-1024, 0x1.ffffffffffffep-1023, 0x1p-1022, 0x1.0000000000001p-1022, 0x1.fffffffffffffp-1022,
    0x1p-1000, 0x1p-538, 0x1.8p-150, 0x1p-149, 0x1.fffffep-127, 0x1.ffffffp-127, 0x1p-126, 0x1p-53, 0x1.fffffffffffffp-2, 0.5,
    0x1.0000000000001p-1, 0x1.fffffffffffffp-1, 1.0, 0x1.0000000000001p+0, 0x1.000001p+0, 0x1.000003p+0, 1.5, 2.0, 2.5, 3.0,
    0x1.fffffffep+30, 0x1.fffffffffp+30, 0x1p+31, 0x1.00000001p+31, 0x1.00000002p+31, 0x1.ffffffffp+31, 0x1p+32, 0x1p+52,
    0x1.0000000000001p+52, 0x1.fffffffffffffp+52, 0x1p+53, 0x1.fffffefp+127, 0x1.ffffffp+127, 0x1p+128, 0x1p+511, 0x1p+1022,
    0x1.ffffffffffffep+1023, 0x1.fffffffffffffp+1023, INFINITY,
};
static const uint64_t NANS_OF_DOUBLES[] = {0x7FF8000000000000, 0x7FFFFFFFFFFFFFFF, 0x7FF0000000000001, 0x7FF7FFFFFFFFFFFF};
static const float SINGLES[] = {
    0.0f, 0x1p-149f, 0x3p-149f, 0x1p-130f, 0x1.fffffcp-127f, 0x1p-126f, 0x1.000002p-126f, 0x1.fffffep-126f, 0x1p-100f, 0x1p-75f,
    0x1p-24f, 0x1.fffffep-2f, 0.5f, 0x1.000002p-1f, 0x1.fffffep-1f, 1.0f, 0x1.000002p+0f, 1.5f, 2.0f, 2.5f, 3.0f, 0x1p+23f,
    0x1.000002p+23f, 0x1.fffffep+23f, 0x1p+24f, 0x1.fffffep+30f, 0x1p+31f, 0x1.fffffep+31f, 0x1p+32f, 0x1p+63f, 0x1p+126f,
    0x1.fffffcp+127f, 0x1.fffffep+127f, INFINITY,
};
/* The last one is in no box. */
static const uint64_t NANS_OF_SINGLES[] = {0xFFFFFFFF7FC00000, 0xFFFFFFFF7FFFFFFF, 0xFFFFFFFF7F800001, 0xFFFFFFFF7FBFFFFF, 0xFFFFFFFE3F800000};
static const uint32_t NUMBERS[] = {0, 1, 2, 3, 0x7FFFFF, 0x800000, 0x1000000, 0x1000001, 0x1000003, 0x7FFFFFBF, 0x7FFFFFC0, 0x7FFFFFFF};

#define LENGTH(array) (sizeof(array) / sizeof(array)[0])
/* The special values of the operands of an operation, and how many they are; those of them that other modes than RNE are tried with. */
static uint64_t special[256], coarse[256];
static unsigned specials, coarses;

static bool takes_doubles(unsigned operation)
{
    const char *name = OPERATIONS[operation].name;
    return strcmp(name + strlen(name) - 2, "_d") == 0;
}

/* A special value with both signs. Of those that are taken in threes, of which there are many, each third is left, and the last. */
static void add(unsigned operation, unsigned i, unsigned length, uint64_t pattern, uint64_t sign)
{
    if (OPERATIONS[operation].kind == FFFF && i % 3 != 0 && i + 1 != length)
        return;
    special[specials++] = pattern;
    special[specials++] = pattern ^ sign;
}

static void find_specials(unsigned operation)
{
    specials = 0;
    if (OPERATIONS[operation].kind == FX)
        for (unsigned i = 0; i < LENGTH(NUMBERS); i++)
            special[specials++] = NUMBERS[i], special[specials++] = -NUMBERS[i], special[specials++] = NUMBERS[i] ^ 0x80000000;
    else if (takes_doubles(operation)) {
        for (unsigned i = 0; i < LENGTH(DOUBLES); i++)
            add(operation, i, LENGTH(DOUBLES), bits_d(DOUBLES[i]), (uint64_t)1 << 63);
        for (unsigned i = 0; i < LENGTH(NANS_OF_DOUBLES); i++)
            add(operation, i, LENGTH(NANS_OF_DOUBLES), NANS_OF_DOUBLES[i], (uint64_t)1 << 63);
    } else {
        for (unsigned i = 0; i < LENGTH(SINGLES); i++)
            add(operation, i, LENGTH(SINGLES), boxed(bits_s(SINGLES[i])), (uint64_t)1 << 31);
        for (unsigned i = 0; i < LENGTH(NANS_OF_SINGLES); i++)
            add(operation, i, LENGTH(NANS_OF_SINGLES), NANS_OF_SINGLES[i], (uint64_t)1 << 31);
    }
}

static unsigned operands_of(enum kind kind)
{
    return kind <= FF ? 1 : kind == FFFF ? 3 : 2;
}

/* Where there are several operands, the other modes are tried with each third of the special values, and the last. */
static void find_coarse(unsigned operation)
{
    coarses = 0;
    for (unsigned i = 0; i < specials; i += 2)
        if (operands_of(OPERATIONS[operation].kind) == 1 || i % 6 == 0 || i + 2 == specials)
            coarse[coarses++] = special[i], coarse[coarses++] = special[i + 1];
}

/* How many cases an operation has with so many values. */
static uint64_t cases_of(unsigned operation, unsigned values)
{
    uint64_t count = 1;
    for (unsigned i = operands_of(OPERATIONS[operation].kind); i > 0; i--)
        count *= values;
    return count;
}

static uint64_t special_cases(unsigned operation)
{
    return cases_of(operation, specials) + (OPERATIONS[operation].round ? (ROUNDINGS - 1) * cases_of(operation, coarses) : 0);
}

/* The operands of a case, and its rounding mode. */
static unsigned make_case(unsigned operation, uint64_t seed, uint64_t number, uint64_t *x)
{
    memset(x, 0, 3 * sizeof *x);
    uint64_t in_first = cases_of(operation, specials), in_other = cases_of(operation, coarses);
    if (number < special_cases(operation)) {
        bool is_first = number < in_first;
        uint64_t left = is_first ? number : (number - in_first) % in_other, values = is_first ? specials : coarses;
        for (unsigned i = 0; i < operands_of(OPERATIONS[operation].kind); i++, left /= values)
            x[i] = (is_first ? special : coarse)[left % values];
        return is_first ? RNE : 1 + (unsigned)((number - in_first) / in_other);
    }
    state = (seed * COUNT + operation) * 0xD1342543DE82EF95 + number * 0x9E3779B97F4A7C15;
    state = chance();
    if (OPERATIONS[operation].kind == FX) {
        x[0] = (uint32_t)chance() >> chance() % 32;
        x[0] = chance() & 1 ? x[0] : -(uint32_t)x[0];
    } else if (takes_doubles(operation)) {
        choose_d(x);
        /* A double that a single has, or nearly, for conversions to it. */
        if (OPERATIONS[operation].round == fcvt_s_d && chance() & 1)
            x[0] = near_d(bits_d((double)real_s(some_s())) + (chance() & 1 ? 0x10000000 : 0));
    } else {
        choose_s(x);
        if (chance() % 16 == 0)
            x[chance() % 3] = chance();
    }
    return number % ROUNDINGS;
}

int main(int count, char **words)
{
    if (count == 1) {
        for (unsigned i = 0; i < COUNT; i++) {
            find_specials(i);
            find_coarse(i);
            printf("%s %" PRIu64 " %d\n", OPERATIONS[i].name, special_cases(i), OPERATIONS[i].round ? ROUNDINGS : 1);
        }
        return 0;
    }
    if (count != 7)
        return 2;
    uint32_t operation = 0;
    while (operation < COUNT && strcmp(OPERATIONS[operation].name, words[1]))
        operation++;
    FILE *operands = fopen(words[5], "wb"), *answers = fopen(words[6], "wb");
    if (operation == COUNT || !operands || !answers)
        return 2;
    find_specials(operation);
    find_coarse(operation);
    fwrite(&operation, sizeof operation, 1, operands);
    uint64_t seed = strtoull(words[2], NULL, 10), first = strtoull(words[3], NULL, 10), end = first + strtoull(words[4], NULL, 10);
    for (uint64_t number = first; number < end; number++) {
        uint64_t x[3];
        unsigned mode = make_case(operation, seed, number, x);
        Answer answer = OPERATIONS[operation].round ? OPERATIONS[operation].round(x, mode) : OPERATIONS[operation].make(x);
        /* The mode is in frm, or in the instruction's field, and anything else in frm. */
        bool is_dynamic = number / ROUNDINGS & 1;
        uint32_t flags = answer.flags, modes[] = {is_dynamic ? mode : (mode + 1 + number / 3 % (CODES - 1)) % CODES, is_dynamic ? DYN : mode};
        fwrite(x, sizeof x, 1, operands);
        fwrite(modes, sizeof modes, 1, operands);
        fwrite(&answer.result, sizeof answer.result, 1, answers);
        fwrite(&flags, sizeof flags, 1, answers);
    }
    return fclose(operands) || fclose(answers) ? 1 : 0;
}
