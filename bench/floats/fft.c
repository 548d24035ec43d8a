/* A fast Fourier transform of N complex numbers and back, in blocks, on as many ranks as are a power of two. Where the two numbers of a
   pair are on two ranks, these exchange their blocks. The transform comes in the order of reversed bits, from which the way back begins. */
#include <bsp.h>
#include <math.h>
#include <stdbool.h>

#include "result.h"

#ifndef N
#define N 4096
#endif

typedef struct {
    double re, im;
} Complex;

/* The block of this rank, and that of another one. Rank 0 gets all blocks. */
static Complex block[N], other[N], whole[N];
/* roots[k] is exp(-2 pi i k / N). */
static Complex roots[N / 2];

static Complex times(Complex a, Complex b)
{
    return (Complex){a.re * b.re - a.im * b.im, a.re * b.im + a.im * b.re};
}

/* Those at powers of two by halves of angles, and the others as products of two. */
static void find_roots(void)
{
    Complex root = {0, -1};

    roots[0] = (Complex){1, 0};
    for (int k = N / 4; k > 0; k /= 2) {
        double cosine = sqrt((1 + root.re) / 2);
        roots[k] = root;
        root = (Complex){cosine, root.im / (2 * cosine)};
    }
    for (int k = 1; k < N / 2; k++)
        if (k & (k - 1))
            roots[k] = times(roots[k & (k - 1)], roots[k & -k]);
}

/* Two numbers that are `half` apart, of which the first is number `at`: their sum, and their difference times a root. The way back makes of
   these twice the two. */
static void make_pair(Complex *low, Complex *high, int at, int half, bool is_back)
{
    Complex root = roots[at % half * (N / 2 / half)], a = *low, b = *high;

    if (is_back)
        b = times(b, (Complex){root.re, -root.im});
    *low = (Complex){a.re + b.re, a.im + b.im};
    *high = (Complex){a.re - b.re, a.im - b.im};
    if (!is_back)
        *high = times(*high, root);
}

/* All pairs that are `half` apart. */
static void make_pairs(int half, bool is_back)
{
    int n = N / bsp_nprocs(), first = n * bsp_pid();

    if (half < n) {
        for (int i = 0; i < n; i++)
            if (!(i & half))
                make_pair(&block[i], &block[i + half], first + i, half, is_back);
        return;
    }
    bsp_put(bsp_pid() ^ (half / n), block, other, 0, n * (int)sizeof block[0]);
    bsp_sync();
    for (int i = 0; i < n; i++)
        if (first & half)
            make_pair(&other[i], &block[i], first + i, half, is_back);
        else
            make_pair(&block[i], &other[i], first + i, half, is_back);
}

/* Brings all numbers to rank 0, which prints them. */
static void tell(const char *name, int number)
{
    int n = N / bsp_nprocs();

    bsp_put(0, block, whole, n * bsp_pid() * (int)sizeof block[0], n * (int)sizeof block[0]);
    bsp_sync();
    if (bsp_pid() == 0)
        print_result(name, whole[number].re, whole, sizeof whole);
}

int main(void)
{
    bsp_begin(bsp_nprocs());
    int n = N / bsp_nprocs(), first = n * bsp_pid();
    for (int i = 0; i < n; i++)
        block[i] = (Complex){some_number(2 * (first + i)), some_number(2 * (first + i) + 1)};
    find_roots();
    bsp_push_reg(other, sizeof other);
    bsp_push_reg(whole, sizeof whole);
    bsp_sync();

    for (int half = N / 2; half > 0; half /= 2)
        make_pairs(half, false);
    tell("transform", 1);
    for (int half = 1; half < N; half *= 2)
        make_pairs(half, true);
    for (int i = 0; i < n; i++)
        block[i] = (Complex){block[i].re / N, block[i].im / N};
    tell("and back", 1);
    bsp_end();
    return 0;
}
