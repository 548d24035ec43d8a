#include <stdio.h>
#include <stdlib.h>
#include <math.h>
#include <float.h>
#include <ctype.h>
#include <bsp.h>
/* Numbers that are typed in, and what is asked of them, until q. */
typedef struct {
    long n;
    double mean, m2, min, max;
} stat_t;
static void push(stat_t *s, double x)
{
    double d = x - s->mean;
    s->n++;
    s->mean += d / s->n;
    s->m2 += d * (x - s->mean);
    if (x < s->min)
        s->min = x;
    if (x > s->max)
        s->max = x;
}
static void merge(stat_t *a, const stat_t *b)
{
    if (b->n == 0)
        return;
    if (a->n == 0) {
        *a = *b;
        return;
    }
    double d = b->mean - a->mean;
    long n = a->n + b->n;
    a->mean += d * b->n / n;
    a->m2 += b->m2 + d * d * a->n * b->n / n;
    a->n = n;
    if (b->min < a->min)
        a->min = b->min;
    if (b->max > a->max)
        a->max = b->max;
}
int main(void)
{
    char cmd;
    double x;
    long k = 0;
    stat_t mine = {0, 0, 0, DBL_MAX, -DBL_MAX}, *all;
    long double ld = 0.0L;
    bsp_begin(bsp_nprocs());
    all = malloc(bsp_nprocs() * sizeof(stat_t));
    bsp_push_reg(all, bsp_nprocs() * sizeof(stat_t));
    bsp_sync();
    do {
        if (bsp_pid() == 0)
            printf("[a]dd, [c]lear, [p]rint, [q]uit: ");
        if (scanf(" %c", &cmd) != 1)
            break;
        switch (tolower(cmd)) {
        case 'a':
            while (scanf("%lf", &x) == 1) {
                if (k++ % bsp_nprocs() == bsp_pid())
                    push(&mine, x);
                ld += x;
            }
            scanf("%*[^\n]");
            break;
        case 'c':
            mine = (stat_t){0, 0, 0, DBL_MAX, -DBL_MAX};
            k = 0;
            ld = 0;
            break;
        case 'p':
            bsp_put(0, &mine, all, bsp_pid() * sizeof mine, sizeof mine);
            bsp_sync();
            if (bsp_pid() == 0) {
                stat_t t = all[0];
                for (int i = 1; i < bsp_nprocs(); i++)
                    merge(&t, &all[i]);
                printf("\nn %ld mean %.6f sd %.6f min %g max %g sum %.4Lf\n", t.n, t.mean, t.n > 1 ? sqrt(t.m2 / (t.n - 1)) : 0.0, t.min,
                       t.max, ld);
                printf("[%*.*f] [%-12.3e] [%+.0f] [%#x] [%hhd] [%5.1f%%]\n", 10, 2, t.mean, t.max, t.min, (unsigned)t.n,
                       (signed char)(t.n + 250), 100.0 * t.mean / t.max);
            }
            break;
        case 'q': break;
        default:
            if (bsp_pid() == 0)
                printf("\nwhat is '%c'?\n", cmd);
        }
    } while (cmd != 'q');
    bsp_end();
    return 0;
}
