/* The parameters of a BSP machine, found by measuring it as textbooks have it: r from additions of a multiple of a vector to another, g and
   l from h-relations of rising h, to whose times a line is fitted by least squares. The argument is the rate of bsprun, by which a time is
   so many instructions; 10^9 without it. */
#include <bsp.h>
#include <stdio.h>
#include <stdlib.h>

enum { N = 200, RELATIONS = 9, STEP = 128, MOST = RELATIONS * STEP, REPEATS = 10 };

/* Operations on doubles in a second. */
static double rate_of_flops(void)
{
    static double x[N], y[N];
    double begin, end, a = 0.5;

    for (int i = 0; i < N; i++)
        x[i] = y[i] = i;
    begin = bsp_time();
    for (int i = 0; i < N; i++)
        y[i] += a * x[i];
    end = bsp_time();
    return 2.0 * N / (end - begin);
}

/* The seconds of a superstep in which each rank puts n bytes to each other one: an h-relation of n (p - 1) bytes. */
static double seconds_of_relation(char *area, int n)
{
    static char bytes[MOST];
    int p = bsp_nprocs(), s = bsp_pid();
    double begin, end;

    bsp_sync();
    begin = bsp_time();
    for (int i = 0; i < REPEATS; i++) {
        for (int t = 1; t < p; t++)
            bsp_put((s + t) % p, bytes, area, s * MOST, n);
        bsp_sync();
    }
    end = bsp_time();
    return (end - begin) / REPEATS;
}

/* The line t = g h + l that has the least sum of squares of the distances from the points. */
static void fit(const double *h, const double *t, int count, double *g, double *l)
{
    double mean_h = 0.0, mean_t = 0.0, over = 0.0, under = 0.0;

    for (int i = 0; i < count; i++) {
        mean_h += h[i] / count;
        mean_t += t[i] / count;
    }
    for (int i = 0; i < count; i++) {
        over += (h[i] - mean_h) * (t[i] - mean_t);
        under += (h[i] - mean_h) * (h[i] - mean_h);
    }
    *g = over / under;
    *l = mean_t - *g * mean_h;
}

int main(int argc, char **argv)
{
    double h[RELATIONS], t[RELATIONS], rate = argc > 1 ? atof(argv[1]) : 1e9, flops, g, l;
    char *area;
    int p, s;

    bsp_begin(bsp_nprocs());
    p = bsp_nprocs();
    s = bsp_pid();
    area = malloc((size_t)p * MOST);
    if (p < 2 || area == NULL || rate <= 0.0)
        bsp_abort("bspbench wants two nodes or more, memory for what they put, and a rate that is positive\n");
    bsp_push_reg(area, p * MOST);
    flops = rate_of_flops();
    for (int i = 0; i < RELATIONS; i++) {
        h[i] = (double)i * STEP * (p - 1);
        t[i] = seconds_of_relation(area, i * STEP) * rate;
        if (s == 0)
            printf("h = %5.0f: %9.1f\n", h[i], t[i]);
    }
    fit(h, t, RELATIONS, &g, &l);
    if (s == 0)
        printf("p = %d, r = %.2f Mflop/s, g = %.2f and l = %.1f instructions\n", p, flops / 1e6, g, l);
    bsp_end();
    return 0;
}
