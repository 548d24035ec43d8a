/* How far the functions of math.h and complex.h are from the exact results, in units in the last place.

   Compiled for a node it calls a function with many operands, and writes the results as bytes; compiled for the host it calls the function
   with the same operands in a format of 113 bits, reads what the node wrote, and prints the greatest error. Operands follow from a seed, by
   arithmetic that is the same on both.

   Usage: ulps COUNT SEED FUNCTION.., as `ulps 1000 1 powf tgamma`. On the host the results come on standard input, and it prints a line for
   each function: its name; the greatest error, of a complex number the greater of its two parts'; that error in units of the whole number's
   absolute value; and the operands of the first. Without functions it prints the names of all. */
#include <complex.h>
#include <float.h>
#include <math.h>
#include <stdint.h>
#include <stdio.h>
#include <stdlib.h>
#include <string.h>

#define COUNT(array) ((int)(sizeof(array) / sizeof(array)[0]))

/* Each function with bounds of the operands that are asked for most: where its results are neither all the same nor too large. */
#define REAL(F) \
    F(acos, -1, 1) F(acosh, 1, 10) F(asin, -1, 1) F(asinh, -10, 10) F(atan, -10, 10) F(atanh, -1, 1) F(cbrt, -100, 100) F(cos, -100, 100) \
    F(cosh, -720, 720) F(erf, -6, 6) F(erfc, -6, 28) F(exp, -760, 720) F(exp2, -1080, 1030) F(expm1, -50, 720) F(lgamma, -30, 30) \
    F(log, 0, 10) F(log10, 0, 10) F(log1p, -1, 10) F(log2, 0, 10) F(sin, -100, 100) F(sinh, -720, 720) F(sqrt, 0, 100) F(tan, -100, 100) \
    F(tanh, -20, 20) F(tgamma, -30, 172)
#define REAL_OF_TWO(F) F(atan2, -10, 10) F(fmod, -100, 100) F(hypot, -100, 100) F(pow, -10, 50) F(remainder, -100, 100)
#define COMPLEX(F) \
    F(cacos, -3, 3) F(cacosh, -3, 3) F(casin, -3, 3) F(casinh, -3, 3) F(catan, -3, 3) F(catanh, -3, 3) F(ccos, -10, 10) F(ccosh, -10, 10) \
    F(cexp, -10, 10) F(clog, -3, 3) F(csin, -10, 10) F(csinh, -10, 10) F(csqrt, -10, 10) F(ctan, -10, 10) F(ctanh, -10, 10)
#define COMPLEX_OF_TWO(F) F(cpow, -3, 3) F(product, -10, 10) F(quotient, -10, 10)

#define ARITHMETIC(type, suffix) \
    static type _Complex product##suffix(type _Complex a, type _Complex b) \
    { \
        return a * b; \
    } \
    static type _Complex quotient##suffix(type _Complex a, type _Complex b) \
    { \
        return a / b; \
    }

/* The format of 113 bits. */
#ifndef __riscv
#if LDBL_MANT_DIG == 113
typedef long double Wide;
typedef long double _Complex WideComplex;
#define WIDE(name) name##l
#define WIDE_EXACT(name) name##l
ARITHMETIC(long double, l)
#else
#include <quadmath.h>
typedef __float128 Wide;
typedef __complex128 WideComplex;
#define WIDE(name) name##q
static WideComplex productq(WideComplex a, WideComplex b)
{
    return a * b;
}
static WideComplex quotientq(WideComplex a, WideComplex b)
{
    return a / b;
}
#endif
#define PAIR(name) (void (*)(void)) name, (void (*)(void))name##f, (void (*)(void))WIDE(name)
#else
#define PAIR(name) (void (*)(void)) name, (void (*)(void))name##f, NULL
#endif

ARITHMETIC(double, )
ARITHMETIC(float, f)

enum Kind { OF_ONE, OF_TWO, COMPLEX_OF_ONE, COMPLEX_OF_TWO };

static const struct Function {
    const char *name;
    enum Kind kind;
    double low, high;
    void (*at_double)(void), (*at_float)(void), (*exact)(void);
} functions[] = {
#define ROW_OF_ONE(name, low, high) {#name, OF_ONE, low, high, PAIR(name)},
#define ROW_OF_TWO(name, low, high) {#name, OF_TWO, low, high, PAIR(name)},
#define ROW_COMPLEX(name, low, high) {#name, COMPLEX_OF_ONE, low, high, PAIR(name)},
#define ROW_COMPLEX_OF_TWO(name, low, high) {#name, COMPLEX_OF_TWO, low, high, PAIR(name)},
    REAL(ROW_OF_ONE) REAL_OF_TWO(ROW_OF_TWO) COMPLEX(ROW_COMPLEX) COMPLEX_OF_TWO(ROW_COMPLEX_OF_TWO)};

static int is_complex(const struct Function *of)
{
    return of->kind == COMPLEX_OF_ONE || of->kind == COMPLEX_OF_TWO;
}

/* How many numbers a function takes. */
static int taken(const struct Function *of)
{
    return of->kind == OF_ONE ? 1 : of->kind == COMPLEX_OF_TWO ? 4 : 2;
}

/* Operands. */

static uint64_t state;

static uint64_t next(void)
{
    state ^= state << 13;
    state ^= state >> 7;
    state ^= state << 17;
    return state * UINT64_C(0x2545F4914F6CDD1D);
}

/* From 0 to 1. */
static double part_of_one(void)
{
    return (double)(next() >> 11) * 0x1p-53;
}

static double of_bits(uint64_t bits)
{
    double x;
    memcpy(&x, &bits, sizeof x);
    return x;
}

static uint64_t bits_of(double x)
{
    uint64_t bits;
    memcpy(&bits, &x, sizeof bits);
    return bits;
}

static float float_of_bits(uint32_t bits)
{
    float x;
    memcpy(&x, &bits, sizeof x);
    return x;
}

static uint32_t bits_of_float(float x)
{
    uint32_t bits;
    memcpy(&bits, &x, sizeof bits);
    return bits;
}

/* Any finite number. */
static double any(int single)
{
    for (;;) {
        uint64_t bits = next();
        double x = single ? (double)float_of_bits((uint32_t)(bits >> 32)) : of_bits(bits);
        if (isfinite(x))
            return x;
    }
}

/* Some numbers away from another one, in its format. */
static double away(double x, int single, int by)
{
    if (single)
        return (double)float_of_bits(bits_of_float((float)x) + (uint32_t)by);
    return of_bits(bits_of(x) + (uint64_t)(int64_t)by);
}

static double in_format(double x, int single)
{
    return single ? (double)(float)x : x;
}

/* A power of 2 with an exponent at which each is a double. */
static double power(int exponent)
{
    return of_bits((uint64_t)(exponent + 1023) << 52);
}

static const double special[] = {0, 0x1p-1074, 0x1p-149, DBL_MIN, FLT_MIN, DBL_EPSILON, FLT_EPSILON, 0x1p-12, 0.5, 1, 1.5, 2, 3, 4, 5, 6,
    10, 23, 0x1.921fb54442d18p+0, 0x1.921fb54442d18p+1, 0x1.921fb6p+1, 88, 709, 0x1p24, 0x1p53, FLT_MAX, DBL_MAX};

/* Of two complex numbers parts of products may be infinite where the result is not: those are moderate. */
static double one_operand(const struct Function *of, int single)
{
    double x;
    switch (of->kind == COMPLEX_OF_TWO ? 5 + next() % 4 : next() % 9) {
    case 0:
        return any(single);
    case 1:
        x = (double)(int)(next() % 81 - 40) / 2;
        return away(x, single, x == 0 ? (int)(next() % 33) : (int)(next() % 65) - 32);
    case 2:
        x = (1 + power(-(int)(next() % 53)) * part_of_one()) * (next() % 2 ? 1 : -1);
        return in_format(next() % 2 ? x : 1 / x, single);
    case 3:
        x = (1 + part_of_one()) * power((int)(next() % 60) - 30);
        return in_format(next() % 2 ? x : -x, single);
    case 4:
        x = special[next() % COUNT(special)];
        x = in_format(next() % 2 ? x : -x, single);
        return isfinite(x) ? x : single ? FLT_MAX : DBL_MAX;
    default:
        return in_format(of->low + (of->high - of->low) * part_of_one(), single);
    }
}

/* A number of an absolute value near 1. */
static void near_circle(double *xy, int single)
{
    double t = (1 + part_of_one()) * power(-(int)(next() % 30)), scale = next() % 2 ? 1 : 1 + power(-(int)(next() % 50));
    double x = (1 - t * t) / (1 + t * t) * scale, y = 2 * t / (1 + t * t) * scale;
    int turned = (int)(next() % 8);
    x = turned & 1 ? -x : x;
    y = turned & 2 ? -y : y;
    xy[0] = in_format(turned & 4 ? y : x, single);
    xy[1] = in_format(turned & 4 ? x : y, single);
}

static void operands(const struct Function *of, int single, double *xs)
{
    int count = taken(of);
    for (int i = 0; i < count; i++)
        xs[i] = one_operand(of, single);
    if (is_complex(of) && next() % 4 == 0)
        near_circle(xs, single);
    /* All that is not near 1 to a power is 0 or infinite. */
    if (of->kind == OF_TWO && !strcmp(of->name, "pow") && next() % 2)
        xs[0] = in_format(fabs(xs[0]) > 1e3 || fabs(xs[0]) < 1e-3 ? 1 + part_of_one() : fabs(xs[0]), single);
}

#ifdef __riscv
/* On a node: writes the results. */

static void call_double(const struct Function *of, const double *x, double *result)
{
    double _Complex z, a, b;
    switch (of->kind) {
    case OF_ONE:
        result[0] = ((double (*)(double))of->at_double)(x[0]);
        return;
    case OF_TWO:
        result[0] = ((double (*)(double, double))of->at_double)(x[0], x[1]);
        return;
    case COMPLEX_OF_ONE:
        memcpy(&a, x, sizeof a);
        z = ((double _Complex (*)(double _Complex))of->at_double)(a);
        break;
    default:
        memcpy(&a, x, sizeof a);
        memcpy(&b, x + 2, sizeof b);
        z = ((double _Complex (*)(double _Complex, double _Complex))of->at_double)(a, b);
    }
    memcpy(result, &z, sizeof z);
}

static void call_float(const struct Function *of, const double *xs, float *result)
{
    float x[4];
    float _Complex z, a, b;
    for (int i = 0; i < 4; i++)
        x[i] = (float)xs[i];
    switch (of->kind) {
    case OF_ONE:
        result[0] = ((float (*)(float))of->at_float)(x[0]);
        return;
    case OF_TWO:
        result[0] = ((float (*)(float, float))of->at_float)(x[0], x[1]);
        return;
    case COMPLEX_OF_ONE:
        memcpy(&a, x, sizeof a);
        z = ((float _Complex (*)(float _Complex))of->at_float)(a);
        break;
    default:
        memcpy(&a, x, sizeof a);
        memcpy(&b, x + 2, sizeof b);
        z = ((float _Complex (*)(float _Complex, float _Complex))of->at_float)(a, b);
    }
    memcpy(result, &z, sizeof z);
}

/* All NaNs have the same bits. */
static void go(const struct Function *of, int single, long count)
{
    double xs[4] = {0}, result[2];
    float results[2];
    int parts = is_complex(of) ? 2 : 1;
    while (count-- > 0) {
        operands(of, single, xs);
        if (single)
            call_float(of, xs, results);
        else
            call_double(of, xs, result);
        for (int i = 0; i < parts; i++) {
            if (single ? isnan(results[i]) : isnan(result[i])) {
                results[i] = NAN;
                result[i] = NAN;
            }
        }
        if (single)
            fwrite(results, sizeof results[0], (size_t)parts, stdout);
        else
            fwrite(result, sizeof result[0], (size_t)parts, stdout);
    }
}
#else
/* On the host: compares them. */

static void call_exact(const struct Function *of, const double *xs, Wide *result)
{
    Wide x[4];
    WideComplex z, a, b;
    for (int i = 0; i < 4; i++)
        x[i] = xs[i];
    switch (of->kind) {
    case OF_ONE:
        result[0] = ((Wide(*)(Wide))of->exact)(x[0]);
        return;
    case OF_TWO:
        result[0] = ((Wide(*)(Wide, Wide))of->exact)(x[0], x[1]);
        return;
    case COMPLEX_OF_ONE:
        memcpy(&a, x, sizeof a);
        z = ((WideComplex(*)(WideComplex))of->exact)(a);
        break;
    default:
        memcpy(&a, x, sizeof a);
        memcpy(&b, x + 2, sizeof b);
        z = ((WideComplex(*)(WideComplex, WideComplex))of->exact)(a, b);
    }
    memcpy(result, &z, sizeof z);
}

/* A unit in the last place of a number. Above the largest one of its format it stays the same. */
static Wide unit(Wide of, int single)
{
    int exponent, digits = single ? FLT_MANT_DIG : DBL_MANT_DIG, least = single ? FLT_MIN_EXP : DBL_MIN_EXP;
    int most = single ? FLT_MAX_EXP : DBL_MAX_EXP;
    if (isinf((double)of))
        exponent = most;
    else
        WIDE(frexp)(of, &exponent);
    exponent = of == 0 || exponent < least ? least : exponent > most ? most : exponent;
    return WIDE(ldexp)(1, exponent - digits);
}

/* How far a result is from what is exact, where a unit is as large as given. An infinity counts as the first number that is none any more.
   */
static double distance(double found, Wide exact, Wide units, int single)
{
    Wide over = WIDE(ldexp)(1, single ? FLT_MAX_EXP : DBL_MAX_EXP), wide = found;
    if (isnan(found) || exact != exact)
        return isnan(found) && exact != exact ? 0 : INFINITY;
    if (exact > over || exact < -over)
        exact = exact > 0 ? over : -over;
    if (isinf(found))
        wide = found > 0 ? over : -over;
    return (double)(WIDE(fabs)(wide - exact) / units);
}

/* The sign of a zero counts, where the exact result is one as well. */
static int has_other_sign(double found, Wide exact)
{
    return found == 0 && exact == 0 && !signbit(found) != !signbit((double)exact);
}

/* Below 0 lgamma has zeros that are no doubles, next to which its digits are those of a sum of terms near 1: there a unit is that of 1/64.
   */
static Wide counted(const struct Function *of, const double *xs, Wide exact)
{
    const Wide least = 1.0 / 64;
    return !strcmp(of->name, "lgamma") && xs[0] < 0 && exact < least && exact > -least ? least : exact;
}

struct Errors {
    double parts, whole, at[4];
};

static void compare(const struct Function *of, int single, const double *xs, const double *found, struct Errors *errors)
{
    Wide exact[2] = {0, 0}, size;
    double part = 0, whole = 0;
    call_exact(of, xs, exact);
    size = is_complex(of) ? WIDE(hypot)(exact[0], exact[1]) : exact[0];
    for (int i = 0; i < (is_complex(of) ? 2 : 1); i++) {
        double error = distance(found[i], exact[i], unit(counted(of, xs, exact[i]), single), single);
        double of_all = distance(found[i], exact[i], unit(size, single), single);
        if (!is_complex(of) && has_other_sign(found[i], exact[i]))
            error = INFINITY;
        part = error > part ? error : part;
        whole = of_all > whole ? of_all : whole;
    }
    if (part > errors->parts) {
        errors->parts = part;
        memcpy(errors->at, xs, sizeof errors->at);
    }
    errors->whole = whole > errors->whole ? whole : errors->whole;
}

static void go(const struct Function *of, int single, long count)
{
    double xs[4] = {0}, found[2] = {0};
    float single_found[2];
    struct Errors errors = {0, 0, {0}};
    size_t parts = is_complex(of) ? 2 : 1;
    while (count-- > 0) {
        operands(of, single, xs);
        if (fread(single ? (void *)single_found : (void *)found, single ? sizeof(float) : sizeof(double), parts, stdin) != parts) {
            printf("results are missing\n");
            exit(1);
        }
        for (size_t i = 0; single && i < parts; i++)
            found[i] = (double)single_found[i];
        compare(of, single, xs, found, &errors);
    }
    printf("%s%s %.4g %.4g", of->name, single ? "f" : "", errors.parts, errors.whole);
    for (int i = 0; i < taken(of); i++)
        printf(" %a", errors.at[i]);
    printf("\n");
}
#endif

/* The function of a name, at this format. */
static const struct Function *named(const char *name, int *single)
{
    for (int i = 0; i < COUNT(functions); i++) {
        size_t length = strlen(functions[i].name);
        if (strncmp(name, functions[i].name, length) != 0)
            continue;
        *single = !strcmp(name + length, "f");
        if (*single || !name[length])
            return &functions[i];
    }
    return NULL;
}

int main(int count, char **words)
{
    for (int i = 0; count < 4 && i < COUNT(functions); i++)
        printf("%s\n%sf\n", functions[i].name, functions[i].name);
    for (int i = 3; i < count; i++) {
        int single;
        const struct Function *of = named(words[i], &single);
        if (!of) {
            fprintf(stderr, "there is no function %s\n", words[i]);
            return 1;
        }
        state = strtoull(words[2], NULL, 10) * UINT64_C(0x9E3779B97F4A7C15) + 1;
        go(of, single, strtol(words[1], NULL, 10));
    }
    return 0;
}
