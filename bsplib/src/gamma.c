/* tgamma and lgamma, which has the name gamma too, and _powf. picolibc's tgamma is e to its lgamma, so that tgamma(6) is below 120 and
   results are off by hundreds of units in the last place; its lgammaf and tgammaf are wrong near 0. musl's are off by several units. These
   stay within 2: they add and multiply pairs of doubles, and take logarithms of 65 bits and powers of e from inside of musl's pow. A
   program may have functions of these names of its own: these are weak.

   From 8 on the logarithm is Stirling's series. A number below goes up to there by whole steps, and gamma(x + n) is divided by x * (x + 1)
   * .. * (x + n - 1). A number below -20 is reflected. Near 1 and 2, where the logarithm is 0, it is a power series. */
#undef __FP_FAST_FMA /* digits would differ where there is such an instruction */
#include <features.h>
#define pow pow_of_musl
static __attribute__((unused)) double pow_of_musl(double x, double y);
#pragma GCC diagnostic push
#pragma GCC diagnostic ignored "-Wunused-but-set-variable"
#pragma GCC diagnostic ignored "-Wconversion"
#include "../vendor/musl/src/math/pow.c"
#pragma GCC diagnostic pop
#undef pow
#undef N
#undef T
#undef A

#define WEAK __attribute__((weak))

/* The sum of both. The second is less than the last digit of the first. */
typedef struct {
    double high, low;
} Pair;

static const double STIRLING = 8, REFLECTED = -20, LARGE = 0x1p60, LEAST = 0x1p-54, NEAR = 1.0 / 16;
static const Pair HALF_LOG_OF_2_PI = {0x1.d67f1c864beb5p-1, -0x1.65b5a1b7ff5dfp-55};
static const Pair LOG_OF_PI = {0x1.250d048e7a1bdp+0, 0x1.7abf2ad8d5088p-57};
/* The logarithm of pi * 2^512, so that no power is subnormal before the end. */
static const Pair LOG_OF_PI_SCALED = {0x1.64093cf432191p+8, -0x1.af5db206c71b3p-49};
static const double SCALE = 0x1p-512;
static const Pair PI = {0x1.921fb54442d18p+1, 0x1.1a62633145c07p-53};

static Pair sum(double a, double b)
{
    double high = a + b, part = high - a;
    return (Pair){high, (a - (high - part)) + (b - part)};
}

/* Of halves of 26 digits each product is exact. */
static Pair product(double a, double b)
{
    double high = a * b, a1 = a * 0x1.0000002p27, b1 = b * 0x1.0000002p27;
    a1 -= a1 - a;
    b1 -= b1 - b;
    double a2 = a - a1, b2 = b - b1;
    return (Pair){high, ((a1 * b1 - high) + a1 * b2 + a2 * b1) + a2 * b2};
}

static Pair plus(Pair a, Pair b)
{
    Pair high = sum(a.high, b.high);
    return sum(high.high, high.low + (a.low + b.low));
}

static Pair minus(Pair a, Pair b)
{
    return plus(a, (Pair){-b.high, -b.low});
}

static Pair times(Pair a, Pair b)
{
    Pair high = product(a.high, b.high);
    return sum(high.high, high.low + (a.high * b.low + a.low * b.high));
}

/* The quotient, rounded once. */
static double quotient(double a, Pair b)
{
    double first = a / b.high;
    Pair back = product(first, b.high);
    return first + ((a - back.high) - back.low - first * b.low) / b.high;
}

/* The natural logarithm of a number above 0 that is not subnormal. */
static Pair logarithm(Pair x)
{
    double low, high = log_inline(asuint64(x.high), &low);
    return sum(high, low + x.low / x.high);
}

static double power_of_e(Pair x)
{
    return exp_inline(x.high, x.low, 0);
}

/* The logarithm of gamma(x), for x from STIRLING to LARGE. */
static Pair series(Pair x)
{
    static const double terms[] = {-1.0 / 360, 1.0 / 1260, -1.0 / 1680, 1.0 / 1188, -691.0 / 360360, 1.0 / 156, -3617.0 / 122400,
        43867.0 / 244188, -174611.0 / 125400, 77683.0 / 5796, -236364091.0 / 1506960};
    double z = 1 / x.high, w = z * z, rest = 0;
    Pair log = logarithm((Pair){x.high, 0}), half = {-log.high / 2, -log.low / 2};
    Pair all = plus(times(log, (Pair){x.high, 0}), half);
    for (int k = x.high < 24 ? 10 : 5; k >= 0; k--)
        rest = w * (terms[k] + rest);
    all = plus(minus(all, (Pair){x.high, 0}), HALF_LOG_OF_2_PI);
    /* By x.low the logarithm grows by about that of x. */
    return plus(all, (Pair){z / 12, z * rest + x.low * (log.high - z / 2)});
}

/* A number from STIRLING on and what of x the gamma function has to be divided by, where x is above REFLECTED and below STIRLING. */
static Pair steps(double x, Pair *by)
{
    Pair at = {x, 0};
    *by = at;
    for (double k = 1;; k++) {
        at = sum(x, k);
        if (at.high >= STIRLING)
            return at;
        *by = times(*by, at);
    }
}

/* |x * sin(pi * x)|, for x that is not whole. The sign is that of sin(pi * x) for positive x. */
static Pair sine(double x, int *is_negative)
{
    double whole = floor(x), part = x - whole, half = part > 0.5 ? 1 - part : part;
    *is_negative = whole / 2 != floor(whole / 2);
    Pair angle = times(PI, (Pair){half <= 0.25 ? half : 0.5 - half, 0});
    return product(x, half <= 0.25 ? __sin(angle.high, angle.low, 1) : __cos(angle.high, angle.low));
}

/* gamma(n), for a whole number from 1 to 23: products that are exact. */
static double factorial(double n)
{
    double result = 1;
    for (double k = 2; k < n; k++)
        result *= k;
    return result;
}

static double reflected(double x)
{
    int is_negative;
    Pair by = sine(-x, &is_negative);
    if (x < -190)
        return __math_uflow(!is_negative);
    double size = quotient(power_of_e(minus(LOG_OF_PI_SCALED, series((Pair){-x, 0}))), by) * SCALE;
    return is_negative ? size : -size;
}

WEAK double tgamma(double x)
{
    if (isnan(x) || x == INFINITY)
        return x;
    if (fabs(x) < LEAST)
        return 1 / x;
    if (x == floor(x) && (x < 0 || x <= 23))
        return x < 0 ? (x - x) / (x - x) : factorial(x);
    if (x > 190)
        return __math_oflow(0);
    if (x >= STIRLING)
        return power_of_e(series((Pair){x, 0}));
    if (x <= REFLECTED)
        return reflected(x);
    Pair by, at = steps(x, &by);
    return quotient(power_of_e(series(at)), by);
}

/* The logarithm near one of its zeros, t away. */
static double near_zero(double t, Pair first, const double *rest)
{
    double value = 0;
    for (int k = 13; k >= 0; k--)
        value = value * t + rest[k];
    Pair high = product(first.high, t);
    return high.high + (high.low + first.low * t + value * t * t);
}

static double near_1(double t)
{
    static const double rest[] = {0.82246703342411321824, -0.40068563438653142847, 0.27058080842778454788, -0.20738555102867398527,
        0.16955717699740818995, -0.14404989676884611812, 0.12550966952474304242, -0.11133426586956469049, 0.10009945751278180853,
        -0.090954017145829042233, 0.083353840546109004025, -0.076932516411352191473, 0.071432946295361336059, -0.066668705882420468033};
    return near_zero(t, (Pair){-0x1.2788cfc6fb619p-1, 0x1.6cb90701fbfabp-58}, rest);
}

static double near_2(double t)
{
    static const double rest[] = {0.32246703342411321824, -0.067352301053198095133, 0.020580808427784547879, -0.0073855510286739852663,
        0.0028905103307415232858, -0.0011927539117032609771, 5.0966952474304242234e-4, -2.2315475845357937976e-4, 9.9457512781808533715e-5,
        -4.49262367381331417e-5, 2.0507212775670691553e-5, -9.439488275268395904e-6, 4.3748667899074878042e-6, -2.0392157538013662368e-6};
    return near_zero(t, (Pair){0x1.b0ee6072093cep-2, 0x1.6cb90701fbfabp-58}, rest);
}

/* The logarithm of |gamma(x)| below STIRLING, for x that is no pole, with the sign of gamma(x). */
static double of_small(double x, int *sign)
{
    int is_negative = 0;
    Pair by;
    if (fabs(x - 1) < NEAR)
        return near_1(x - 1);
    if (fabs(x - 2) < NEAR)
        return near_2(x - 2);
    if (x <= REFLECTED) {
        by = logarithm(sine(-x, &is_negative));
        *sign = is_negative ? 1 : -1;
        by = minus(minus(LOG_OF_PI, by), series((Pair){-x, 0}));
    } else {
        Pair all, at = steps(x, &all);
        *sign = all.high < 0 ? -1 : 1;
        if (all.high < 0)
            all = (Pair){-all.high, -all.low};
        by = minus(series(at), logarithm(all));
    }
    return by.high + by.low;
}

WEAK double lgamma_r(double x, int *sign)
{
    *sign = 1;
    if (!isfinite(x))
        return x * x;
    if (fabs(x) < LEAST) {
        *sign = signbit(x) ? -1 : 1;
        return x == 0 ? 1 / fabs(x) : -log(fabs(x));
    }
    if (x < 0 && x == floor(x))
        return 1 / (x - x);
    if (x < STIRLING)
        return of_small(x, sign);
    if (x < LARGE) {
        Pair all = series((Pair){x, 0});
        return all.high + all.low;
    }
    Pair log = logarithm((Pair){x, 0});
    log = sum(log.high - 1, log.low);
    return x * log.high + x * log.low;
}

WEAK double lgamma(double x)
{
    return lgamma_r(x, &signgam);
}

/* With so many digits more, a result is the nearest number but where it lies next to halfway between two. */
WEAK float tgammaf(float x)
{
    return (float)tgamma(x);
}

WEAK float lgammaf_r(float x, int *sign)
{
    return (float)lgamma_r(x, sign);
}

WEAK float lgammaf(float x)
{
    return lgammaf_r(x, &signgam);
}

WEAK double gamma(double x)
{
    return lgamma(x);
}

WEAK float gammaf(float x)
{
    return lgammaf(x);
}

/* By this name picolibc's exp10f calls what it has in one object with powf. */
WEAK float _powf(float x, float y)
{
    return powf(x, y);
}
