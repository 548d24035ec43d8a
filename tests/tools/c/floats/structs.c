/* Structures with numbers, passed and given back by value. */
#include "show.h"

typedef struct { float x; } One;
typedef struct { float x, y; } Two;
typedef struct { double x, y; } Pair;
typedef struct { double x; int n; } Counted;
typedef struct { int n; float x; } Numbered;
typedef struct { char c; double x; } Tagged;
typedef struct { double x, y, z; } Three;
typedef struct { float x[2]; } Row;
typedef struct { One inner; struct { double y; } other; } Nested;
typedef struct { float x; long long n; } Wide;
typedef union { float x; int n; } Either;

#define APART __attribute__((noinline)) static

APART One one(One a, One b) { return (One){a.x * b.x}; }
APART Two two(Two a, float by) { return (Two){a.y * by, a.x - by}; }
APART Pair pair(Pair a, Pair b) { return (Pair){a.x * b.x - a.y * b.y, a.x * b.y + a.y * b.x}; }
APART Counted counted(Counted a, int by) { return (Counted){a.x / by, a.n + by}; }
APART Numbered numbered(Numbered a, Numbered b) { return (Numbered){a.n * b.n, a.x + b.x}; }
APART Tagged tagged(Tagged a) { return (Tagged){(char)(a.c + 1), -a.x}; }
APART Three three(Three a, double by) { return (Three){a.z * by, a.x * by, a.y * by}; }
APART Row row(Row a) { return (Row){{a.x[1], a.x[0]}}; }
APART Nested nested(Nested a, One b) { return (Nested){{a.inner.x + b.x}, {a.other.y - b.x}}; }
APART Wide wide(Wide a) { return (Wide){a.x * 2, a.n * 3}; }
APART Either either(Either a) { return (Either){.n = a.n ^ INT32_MIN}; }
/* The registers are full before the last ones come. */
APART double many(Pair a, Pair b, Pair c, Pair d, Pair e, Two f, int i, Counted g, float h)
{
    return a.x + b.y * 2 + c.x * 4 + d.y * 8 + e.x * 16 + e.y * 32 + f.x * 64 + f.y * 128 + i + g.x * 256 + g.n + h * 512;
}

int main(void)
{
    volatile float third = 1.0f / 3;
    volatile double seventh = 1.0 / 7;
    Two b = two((Two){third, 2}, 0.5f);
    Pair c = pair((Pair){seventh, 2}, (Pair){third, -1});
    Counted d = counted((Counted){seventh, 3}, 9);
    Numbered e = numbered((Numbered){5, third}, (Numbered){-7, 1.5f});
    Tagged f = tagged((Tagged){'a', seventh});
    Three g = three((Three){seventh, third, 1}, 3);
    Row h = row((Row){{third, 4}});
    Nested i = nested((Nested){{third}, {seventh}}, (One){0.25f});
    Wide j = wide((Wide){third, 1LL << 40});
    show_float("one", one((One){third}, (One){third}).x);
    show_float("two", b.x), show_float("two", b.y);
    show("pair", c.x), show("pair", c.y);
    show("counted", d.x), printf("%d\n", d.n);
    show_float("numbered", e.x), printf("%d\n", e.n);
    show("tagged", f.x), printf("%c\n", f.c);
    show("three", g.x), show("three", g.y), show("three", g.z);
    show_float("row", h.x[0]), show_float("row", h.x[1]);
    show_float("nested", i.inner.x), show("nested", i.other.y);
    show_float("wide", j.x), printf("%lld\n", j.n);
    show_float("either", either((Either){.x = third}).x);
    show("many", many(c, c, (Pair){1, 2}, (Pair){seventh, third}, c, b, 11, d, third));
    return 0;
}
