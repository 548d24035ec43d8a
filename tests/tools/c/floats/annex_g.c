/* The special values of complex functions, as annex G of C11 has them. What is not as it should be is told. */
#include <complex.h>

#include "show.h"

#define PI 3.14159265358979323846
#define MUCH INFINITY
#define NONE NAN

/* What else a function gives follows from f(conj(z)) = conj(f(z)), and from f(-z) = f(z) or -f(z). */
enum Symmetry { PLAIN, EVEN, ODD };
/* Which signs are open. */
enum Open { CLEAR, REAL, IMAGINARY, BOTH };

struct Row {
    double x, y, real, imaginary;
    enum Open open;
};

static const struct Row acos_rows[] = {{0, 0, PI / 2, -0.0, CLEAR}, {-0.0, 0, PI / 2, -0.0, CLEAR}, {0, NONE, PI / 2, NONE, CLEAR},
    {-0.0, NONE, PI / 2, NONE, CLEAR}, {1, MUCH, PI / 2, -MUCH, CLEAR}, {-2, MUCH, PI / 2, -MUCH, CLEAR}, {1, NONE, NONE, NONE, CLEAR},
    {-MUCH, 1, PI, -MUCH, CLEAR}, {-MUCH, 0, PI, -MUCH, CLEAR}, {MUCH, 1, 0, -MUCH, CLEAR}, {MUCH, 0, 0, -MUCH, CLEAR},
    {-MUCH, MUCH, 3 * PI / 4, -MUCH, CLEAR}, {MUCH, MUCH, PI / 4, -MUCH, CLEAR}, {MUCH, NONE, NONE, MUCH, IMAGINARY},
    {-MUCH, NONE, NONE, MUCH, IMAGINARY}, {NONE, 1, NONE, NONE, CLEAR}, {NONE, 0, NONE, NONE, CLEAR}, {NONE, MUCH, NONE, -MUCH, CLEAR},
    {NONE, NONE, NONE, NONE, CLEAR}};
static const struct Row acosh_rows[] = {{0, 0, 0, PI / 2, CLEAR}, {-0.0, 0, 0, PI / 2, CLEAR}, {1, MUCH, MUCH, PI / 2, CLEAR},
    {-3, MUCH, MUCH, PI / 2, CLEAR}, {1, NONE, NONE, NONE, CLEAR}, {-MUCH, 1, MUCH, PI, CLEAR}, {MUCH, 1, MUCH, 0, CLEAR},
    {-MUCH, MUCH, MUCH, 3 * PI / 4, CLEAR}, {MUCH, MUCH, MUCH, PI / 4, CLEAR}, {MUCH, NONE, MUCH, NONE, CLEAR},
    {-MUCH, NONE, MUCH, NONE, CLEAR}, {NONE, 1, NONE, NONE, CLEAR}, {NONE, MUCH, MUCH, NONE, CLEAR}, {NONE, NONE, NONE, NONE, CLEAR}};
static const struct Row asinh_rows[] = {{0, 0, 0, 0, CLEAR}, {1, MUCH, MUCH, PI / 2, CLEAR}, {0, MUCH, MUCH, PI / 2, CLEAR},
    {1, NONE, NONE, NONE, CLEAR}, {MUCH, 1, MUCH, 0, CLEAR}, {MUCH, MUCH, MUCH, PI / 4, CLEAR}, {MUCH, NONE, MUCH, NONE, CLEAR},
    {NONE, 0, NONE, 0, CLEAR}, {NONE, 1, NONE, NONE, CLEAR}, {NONE, MUCH, MUCH, NONE, REAL}, {NONE, NONE, NONE, NONE, CLEAR}};
static const struct Row atanh_rows[] = {{0, 0, 0, 0, CLEAR}, {0, NONE, 0, NONE, CLEAR}, {1, 0, MUCH, 0, CLEAR}, {1, MUCH, 0, PI / 2, CLEAR},
    {0, MUCH, 0, PI / 2, CLEAR}, {1, NONE, NONE, NONE, CLEAR}, {MUCH, 1, 0, PI / 2, CLEAR}, {MUCH, 0, 0, PI / 2, CLEAR},
    {MUCH, MUCH, 0, PI / 2, CLEAR}, {MUCH, NONE, 0, NONE, CLEAR}, {NONE, 1, NONE, NONE, CLEAR}, {NONE, MUCH, 0, PI / 2, REAL},
    {NONE, NONE, NONE, NONE, CLEAR}};
static const struct Row cosh_rows[] = {{0, 0, 1, 0, CLEAR}, {0, MUCH, NONE, 0, IMAGINARY}, {0, NONE, NONE, 0, IMAGINARY},
    {1, MUCH, NONE, NONE, CLEAR}, {1, NONE, NONE, NONE, CLEAR}, {MUCH, 0, MUCH, 0, CLEAR}, {MUCH, 1, MUCH, MUCH, CLEAR},
    {MUCH, 2, -MUCH, MUCH, CLEAR}, {MUCH, MUCH, MUCH, NONE, REAL}, {MUCH, NONE, MUCH, NONE, CLEAR}, {NONE, 0, NONE, 0, IMAGINARY},
    {NONE, 1, NONE, NONE, CLEAR}, {NONE, NONE, NONE, NONE, CLEAR}};
static const struct Row sinh_rows[] = {{0, 0, 0, 0, CLEAR}, {0, MUCH, 0, NONE, REAL}, {0, NONE, 0, NONE, REAL},
    {1, MUCH, NONE, NONE, CLEAR}, {1, NONE, NONE, NONE, CLEAR}, {MUCH, 0, MUCH, 0, CLEAR}, {MUCH, 1, MUCH, MUCH, CLEAR},
    {MUCH, 2, -MUCH, MUCH, CLEAR}, {MUCH, MUCH, MUCH, NONE, REAL}, {MUCH, NONE, MUCH, NONE, REAL}, {NONE, 0, NONE, 0, CLEAR},
    {NONE, 1, NONE, NONE, CLEAR}, {NONE, NONE, NONE, NONE, CLEAR}};
static const struct Row tanh_rows[] = {{0, 0, 0, 0, CLEAR}, {1, MUCH, NONE, NONE, CLEAR}, {1, NONE, NONE, NONE, CLEAR},
    {MUCH, 0, 1, 0, CLEAR}, {MUCH, 1, 1, 0, CLEAR}, {MUCH, 2, 1, -0.0, CLEAR}, {MUCH, MUCH, 1, 0, IMAGINARY}, {MUCH, NONE, 1, 0, IMAGINARY},
    {NONE, 0, NONE, 0, CLEAR}, {NONE, 1, NONE, NONE, CLEAR}, {NONE, NONE, NONE, NONE, CLEAR}};
static const struct Row exp_rows[] = {{0, 0, 1, 0, CLEAR}, {-0.0, 0, 1, 0, CLEAR}, {1, MUCH, NONE, NONE, CLEAR},
    {1, NONE, NONE, NONE, CLEAR}, {MUCH, 0, MUCH, 0, CLEAR}, {-MUCH, 1, 0, 0, CLEAR}, {-MUCH, 2, -0.0, 0, CLEAR},
    {MUCH, 1, MUCH, MUCH, CLEAR}, {MUCH, 2, -MUCH, MUCH, CLEAR}, {-MUCH, MUCH, 0, 0, BOTH}, {MUCH, MUCH, MUCH, NONE, REAL},
    {-MUCH, NONE, 0, 0, BOTH}, {MUCH, NONE, MUCH, NONE, REAL}, {NONE, 0, NONE, 0, CLEAR}, {NONE, 1, NONE, NONE, CLEAR},
    {NONE, NONE, NONE, NONE, CLEAR}};
static const struct Row log_rows[] = {{-0.0, 0, -MUCH, PI, CLEAR}, {0, 0, -MUCH, 0, CLEAR}, {1, MUCH, MUCH, PI / 2, CLEAR},
    {1, NONE, NONE, NONE, CLEAR}, {-MUCH, 1, MUCH, PI, CLEAR}, {MUCH, 1, MUCH, 0, CLEAR}, {-MUCH, MUCH, MUCH, 3 * PI / 4, CLEAR},
    {MUCH, MUCH, MUCH, PI / 4, CLEAR}, {MUCH, NONE, MUCH, NONE, CLEAR}, {-MUCH, NONE, MUCH, NONE, CLEAR}, {NONE, 1, NONE, NONE, CLEAR},
    {NONE, MUCH, MUCH, NONE, CLEAR}, {NONE, NONE, NONE, NONE, CLEAR}};
static const struct Row sqrt_rows[] = {{0, 0, 0, 0, CLEAR}, {-0.0, 0, 0, 0, CLEAR}, {1, MUCH, MUCH, MUCH, CLEAR},
    {NONE, MUCH, MUCH, MUCH, CLEAR}, {-MUCH, MUCH, MUCH, MUCH, CLEAR}, {1, NONE, NONE, NONE, CLEAR}, {-MUCH, 1, 0, MUCH, CLEAR},
    {MUCH, 1, MUCH, 0, CLEAR}, {-MUCH, NONE, NONE, MUCH, IMAGINARY}, {MUCH, NONE, MUCH, NONE, CLEAR}, {NONE, 1, NONE, NONE, CLEAR},
    {NONE, NONE, NONE, NONE, CLEAR}, {-4, 0, 0, 2, CLEAR}, {4, 0, 2, 0, CLEAR}};

static int compared;

static int same(double found, double wanted, int is_open, double most)
{
    if (isnan(wanted))
        return isnan(found);
    if (is_open)
        found = copysign(found, wanted);
    if (isinf(wanted) || wanted == 0)
        return found == wanted && !signbit(found) == !signbit(wanted);
    return fabs(found - wanted) <= most * fabs(wanted);
}

static void compare(
    const char *name, double x, double y, double real, double imaginary, const struct Row *row, double most, double _Complex found)
{
    compared++;
    if (!same(creal(found), real, row->open & REAL, most) || !same(cimag(found), imaginary, row->open & IMAGINARY, most))
        printf("%s(%g, %g) is (%g, %g) and not (%g, %g)\n", name, x, y, creal(found), cimag(found), real, imaginary);
}

typedef double _Complex Function(double _Complex);
typedef float _Complex FunctionOfFloat(float _Complex);

static void at(
    const char *name, Function *of, FunctionOfFloat *of_float, double x, double y, double real, double imaginary, const struct Row *row)
{
    compare(name, x, y, real, imaginary, row, 4 * DBL_EPSILON, of(CMPLX(x, y)));
    float _Complex z = of_float(CMPLXF((float)x, (float)y));
    compare(name, x, y, real, imaginary, row, 4 * FLT_EPSILON, CMPLX(crealf(z), cimagf(z)));
}

/* A row, and what follows from it by symmetry. */
static void around(const char *name, Function *of, FunctionOfFloat *of_float, enum Symmetry symmetry, const struct Row *row)
{
    double sign = symmetry == ODD ? -1 : 1;
    at(name, of, of_float, row->x, row->y, row->real, row->imaginary, row);
    at(name, of, of_float, row->x, -row->y, row->real, -row->imaginary, row);
    if (symmetry == PLAIN)
        return;
    at(name, of, of_float, -row->x, -row->y, sign * row->real, sign * row->imaginary, row);
    at(name, of, of_float, -row->x, row->y, sign * row->real, sign * -row->imaginary, row);
}

#define ROWS(name, rows, symmetry) \
    for (int i = 0; i < COUNT(rows); i++) \
    around(#name, name, name##f, symmetry, &rows[i])

/* casin(z) is -i casinh(iz), and so on; ccos(z) is ccosh(iz). */
#define TURNED(name, rows) \
    for (int i = 0; i < COUNT(rows); i++) { \
        struct Row it = rows[i]; \
        it.open = it.open == REAL ? IMAGINARY : it.open == IMAGINARY ? REAL : it.open; \
        at(#name, name, name##f, it.y, -it.x, it.imaginary, -it.real, &it); \
        at(#name, name, name##f, -it.y, -it.x, -it.imaginary, -it.real, &it); \
    }

int main(void)
{
    ROWS(cacos, acos_rows, PLAIN);
    ROWS(cacosh, acosh_rows, PLAIN);
    ROWS(casinh, asinh_rows, ODD);
    ROWS(catanh, atanh_rows, ODD);
    ROWS(ccosh, cosh_rows, EVEN);
    ROWS(csinh, sinh_rows, ODD);
    ROWS(ctanh, tanh_rows, ODD);
    ROWS(cexp, exp_rows, PLAIN);
    ROWS(clog, log_rows, PLAIN);
    ROWS(csqrt, sqrt_rows, PLAIN);
    TURNED(casin, asinh_rows);
    TURNED(catan, atanh_rows);
    TURNED(csin, sinh_rows);
    TURNED(ctan, tanh_rows);
    for (int i = 0; i < COUNT(cosh_rows); i++)
        at("ccos", ccos, ccosf, cosh_rows[i].y, -cosh_rows[i].x, cosh_rows[i].real, cosh_rows[i].imaginary, &cosh_rows[i]);
    printf("%d compared\n", compared);
    return 0;
}
