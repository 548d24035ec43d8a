/* The operations of one format, by the arithmetic of the host's processor and by the rules of RISC-V. Included once for each format, with
   these names defined: FORMAT its suffix, REAL and BITS its types in C, DIGITS the bits of its fraction, MATH(f) the name of a function of
   <math.h> for it, OPERAND(x) the pattern of a register, RESULT(x) the register of a pattern. */

#define NAME_(a, b) a##b
#define NAME__(a, b) NAME_(a, b)
#define N(name) NAME__(name, FORMAT)

#define SIGN ((BITS)1 << (8 * sizeof(BITS) - 1))
#define INFINITY_BITS ((BITS)(SIGN - 1) >> DIGITS << DIGITS)
#define QUIET ((BITS)1 << (DIGITS - 1))
#define CANONICAL (INFINITY_BITS | QUIET)

static REAL N(real)(BITS bits)
{
    REAL x;
    memcpy(&x, &bits, sizeof x);
    return x;
}

static BITS N(bits)(REAL x)
{
    BITS bits;
    memcpy(&bits, &x, sizeof x);
    return bits;
}

static bool N(is_nan)(BITS x)
{
    return (x & ~SIGN) > INFINITY_BITS;
}

static bool N(is_signaling)(BITS x)
{
    return N(is_nan)(x) && !(x & QUIET);
}

/* A NaN is written as the canonical one. */
static Answer N(answer)(REAL x, unsigned flags)
{
    BITS bits = N(bits)(x);
    return (Answer){RESULT(N(is_nan)(bits) ? CANONICAL : bits), flags};
}

/* What the host makes of operands, in the mode that is set, and what it makes of them as long doubles. Operands are read, and results are
   written, between the calls of <fenv.h>: they are volatile. */
typedef struct {
    void (*make)(const volatile void *, volatile REAL *);
    void (*widely)(const volatile void *, volatile long double *);
} N(Host);
#define OF_HOST(name, narrow, wide) \
    static void N(make_##name)(const volatile void *operands, volatile REAL *result) \
    { \
        const volatile REAL *x = operands; \
        REAL a = x[0], b = x[1], c = x[2]; \
        (void)b, (void)c; \
        *result = narrow; \
    } \
    static void N(widely_##name)(const volatile void *operands, volatile long double *result) \
    { \
        const volatile REAL *x = operands; \
        long double a = x[0], b = x[1], c = x[2]; \
        (void)b, (void)c; \
        *result = wide; \
    } \
    static const N(Host) N(host_##name) = {N(make_##name), N(widely_##name)};

/* Whether the exact result lies halfway between two neighbours of the format. It has a digit more than these, so that a long double holds it. */
static bool N(is_tie)(const N(Host) *host, const volatile void *operands, REAL one, REAL other)
{
    volatile long double exact;
    fesetround(FE_TONEAREST);
    feclearexcept(FE_ALL_EXCEPT);
    host->widely(operands, &exact);
    return !fetestexcept(FE_INEXACT) && exact == ((long double)one + other) / 2;
}

/* In a mode of RISC-V. The host has no RMM: that is to the nearest, but for a tie, and raises the same, since a tie at the greatest value or
   next below the least normal one goes away from zero to the nearest, too. */
static Answer N(rounded)(const N(Host) *host, const volatile void *operands, unsigned mode)
{
    volatile REAL results[2];
    unsigned flags = 0;
    for (int i = mode == RMM ? 0 : 1; i < 2; i++) {
        fesetround(mode == RMM && i == 0 ? FE_TOWARDZERO : MODES[mode]);
        feclearexcept(FE_ALL_EXCEPT);
        host->make(operands, &results[i]);
        flags = raised();
    }
    REAL result = results[1];
    if (mode == RMM && isfinite(result) && flags & NX && N(bits)(result) == N(bits)(results[0])) {
        REAL away = N(real)(N(bits)(result) + 1);
        if (isfinite(away) && N(is_tie)(host, operands, result, away))
            result = away;
    }
    fesetround(FE_TONEAREST);
    return N(answer)(result, flags);
}

#define HOST(name, narrow, wide) \
    OF_HOST(name, narrow, wide) \
    static Answer N(name)(const uint64_t *x, unsigned mode) \
    { \
        volatile REAL operands[] = {N(real)(OPERAND(x[0])), N(real)(OPERAND(x[1])), 0}; \
        return N(rounded)(&N(host_##name), operands, mode); \
    }
HOST(fadd, a + b, a + b)
HOST(fsub, a - b, a - b)
HOST(fmul, a * b, a * b)
HOST(fdiv, a / b, a / b)
HOST(fsqrt, MATH(sqrt)(a), sqrtl(a))

/* a * b + c, rounded once. Infinity times zero is invalid whatever is added; x86 leaves the flag where a quiet NaN is added to it. */
OF_HOST(fma, MATH(fma)(a, b, c), fmal(a, b, c))
static Answer N(fused)(BITS a, BITS b, BITS c, unsigned mode)
{
    volatile REAL operands[] = {N(real)(a), N(real)(b), N(real)(c)};
    BITS sizes[] = {a & ~SIGN, b & ~SIGN};
    bool is_invalid = (sizes[0] == 0 && sizes[1] == INFINITY_BITS) || (sizes[0] == INFINITY_BITS && sizes[1] == 0);
    Answer answer = N(rounded)(&N(host_fma), operands, mode);
    answer.flags |= is_invalid ? NV : 0;
    return answer;
}
#define FUSED(name, of_product, of_sum) \
    static Answer N(name)(const uint64_t *x, unsigned mode) \
    { \
        return N(fused)(OPERAND(x[0]) ^ (of_product), OPERAND(x[1]), OPERAND(x[2]) ^ (of_sum), mode); \
    }
FUSED(fmadd, 0, 0)
FUSED(fmsub, 0, SIGN)
FUSED(fnmsub, SIGN, 0)
FUSED(fnmadd, SIGN, SIGN)

/* Comparisons of the host's: `==` is quiet, `<` and `<=` are invalid for each NaN. */
#define COMPARED(name, expression) \
    static Answer N(name)(const uint64_t *operands) \
    { \
        volatile REAL va = N(real)(OPERAND(operands[0])), vb = N(real)(OPERAND(operands[1])); \
        feclearexcept(FE_ALL_EXCEPT); \
        REAL a = va, b = vb; \
        volatile int result = expression; \
        unsigned flags = raised(); \
        return (Answer){(uint64_t)result, flags}; \
    }
COMPARED(feq, a == b)
COMPARED(flt, a < b)
COMPARED(fle, a <= b)

/* The rest by RISC-V's own rules. */

/* The lesser of two patterns, or the greater: a NaN gives way, and -0 is below +0. */
static Answer N(extreme)(BITS a, BITS b, bool wants_least)
{
    unsigned flags = N(is_signaling)(a) || N(is_signaling)(b) ? NV : 0;
    if (N(is_nan)(a))
        return (Answer){RESULT(N(is_nan)(b) ? CANONICAL : b), flags};
    if (N(is_nan)(b))
        return (Answer){RESULT(a), flags};
    /* In this order, as whole numbers with a sign, -0 is just below +0. */
    bool is_less = a & SIGN ? !(b & SIGN) || a > b : !(b & SIGN) && a < b;
    return (Answer){RESULT(is_less == wants_least ? a : b), flags};
}

static Answer N(fmin)(const uint64_t *x)
{
    return N(extreme)(OPERAND(x[0]), OPERAND(x[1]), true);
}

static Answer N(fmax)(const uint64_t *x)
{
    return N(extreme)(OPERAND(x[0]), OPERAND(x[1]), false);
}

#define SIGNED(name, sign) \
    static Answer N(name)(const uint64_t *x) \
    { \
        BITS a = OPERAND(x[0]), b = OPERAND(x[1]); \
        return (Answer){RESULT((a & ~SIGN) | ((sign) & SIGN)), 0}; \
    }
SIGNED(fsgnj, b)
SIGNED(fsgnjn, ~b)
SIGNED(fsgnjx, a ^ b)

static Answer N(fclass)(const uint64_t *x)
{
    BITS a = OPERAND(x[0]), size = a & ~SIGN;
    if (N(is_nan)(a))
        return (Answer){a & QUIET ? 1 << 9 : 1 << 8, 0};
    int from_zero = size == 0 ? 0 : size >> DIGITS == 0 ? 1 : size == INFINITY_BITS ? 3 : 2;
    return (Answer){a & SIGN ? 1u << (3 - from_zero) : 1u << (4 + from_zero), 0};
}

/* A value that was rounded to a whole number already, as a word: at the end of the range where it lies outside. */
static Answer N(word)(REAL value, REAL whole, double least, double most)
{
    if (isnan(value) || whole > most)
        return (Answer){(uint32_t)(int64_t)most, NV};
    if (whole < least)
        return (Answer){(uint32_t)(int64_t)least, NV};
    return (Answer){(uint32_t)(int64_t)whole, whole == value ? 0 : NX};
}
static REAL N(whole)(REAL value, unsigned mode)
{
    switch (mode) {
    case RNE: return MATH(rint)(value);
    case RTZ: return MATH(trunc)(value);
    case RDN: return MATH(floor)(value);
    case RUP: return MATH(ceil)(value);
    default: return MATH(round)(value);
    }
}
#define TO_WORD(name, least, most) \
    static Answer N(name)(const uint64_t *x, unsigned mode) \
    { \
        REAL value = N(real)(OPERAND(x[0])); \
        return N(word)(value, N(whole)(value, mode), least, most); \
    }
TO_WORD(fcvt_w, INT32_MIN, INT32_MAX)
TO_WORD(fcvt_wu, 0, UINT32_MAX)

/* A pattern of one of TestFloat's kinds: an exponent anywhere, or near the edges, and digits anywhere, few, or next to many that are alike. */
static BITS N(some)(void)
{
    unsigned exponents = (unsigned)(INFINITY_BITS >> DIGITS), middle = exponents / 2;
    BITS digits = (BITS)chance() & ((BITS)-1 >> (8 * sizeof(BITS) - DIGITS)), exponent;
    BITS one = (BITS)1 << chance() % DIGITS, other = (BITS)1 << chance() % DIGITS;
    switch (chance() % 8) {
    case 0: digits = one; break;
    case 1: digits = one + other; break;
    case 2: digits = QUIET * 2 - one; break;
    case 3: digits = (BITS)(QUIET * 2 - one - other); break;
    case 4: digits = digits / one * one; break;
    default: break;
    }
    digits &= QUIET * 2 - 1;
    switch (chance() % 8) {
    case 0: exponent = chance() % 4; break;
    case 1: exponent = exponents - chance() % 4; break;
    case 2: exponent = middle - 2 + chance() % 5; break;
    case 3: exponent = middle + chance() % 40; break;
    case 4: exponent = middle / 2 + chance() % 5; break;
    case 5: exponent = middle + middle / 2 - chance() % 5; break;
    default: exponent = chance() % (exponents + 1); break;
    }
    return (chance() & 1 ? SIGN : 0) | exponent << DIGITS | digits;
}

/* A pattern near another one, of any sign. */
static BITS N(near)(BITS x)
{
    return (x + (BITS)(chance() % 9) - 4) ^ (chance() & 1 ? SIGN : 0);
}

/* Three operands. Often they are near to where something begins: sums that cancel, products and quotients about the least and the greatest
   values, and what is added near to the product. */
static void N(choose)(uint64_t *x)
{
    unsigned exponents = (unsigned)(INFINITY_BITS >> DIGITS), middle = exponents / 2, a_exponent;
    BITS a = N(some)(), b = N(some)(), c = N(some)(), digits = QUIET * 2 - 1, exponent;
    a_exponent = (unsigned)((a & INFINITY_BITS) >> DIGITS);
    switch (chance() % 8) {
    case 0: b = N(near)(a); break;
    case 1: /* products about 2^emin */
        exponent = (BITS)(middle + 2 - a_exponent + chance() % 4) & exponents;
        b = (b & (SIGN | digits)) | exponent << DIGITS;
        break;
    case 2: /* quotients about it */
        exponent = (BITS)(a_exponent + middle - 3 + chance() % 4) & exponents;
        b = (b & (SIGN | digits)) | exponent << DIGITS;
        break;
    case 3: /* a sum of two of which one is a few digits' worth of the other's last ones */
        exponent = (BITS)(a_exponent - DIGITS - 2 + chance() % 5) & exponents;
        b = (b & (SIGN | digits)) | exponent << DIGITS;
        break;
    default: break;
    }
    switch (chance() % 4) {
    case 0: c = N(near)(N(bits)(N(real)(a) * N(real)(b))); break;
    case 1: /* what is added is some digits away from the product */
        exponent = (N(bits)(N(real)(a) * N(real)(b)) & INFINITY_BITS) >> DIGITS;
        exponent = (exponent - DIGITS - 3 + chance() % (2 * DIGITS + 6)) & exponents;
        c = (c & (SIGN | digits)) | exponent << DIGITS;
        break;
    default: break;
    }
    x[0] = RESULT(a), x[1] = RESULT(b), x[2] = RESULT(c);
}

#undef N
#undef SIGN
#undef INFINITY_BITS
#undef QUIET
#undef CANONICAL
#undef OF_HOST
#undef HOST
#undef FUSED
#undef COMPARED
#undef SIGNED
#undef TO_WORD
