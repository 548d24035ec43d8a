#ifndef BV_H_INCLUDED
#define BV_H_INCLUDED
#include <stddef.h>
typedef struct bv_vec {
    size_t n, nloc;
    double *data;
} bv_vec;
bv_vec *bv_new(size_t n);
void bv_free(bv_vec *v);
size_t bv_global(size_t i);
double bv_dot(const bv_vec *a, const bv_vec *b);
void bv_axpy(double alpha, const bv_vec *x, bv_vec *y);
double comm_sum(double x);
void comm_shift(const bv_vec *v, int by, bv_vec *out);
struct options {
    int n, iters;
    const char *title;
};
extern struct options opts;
void parse(int argc, char **argv);
#endif
