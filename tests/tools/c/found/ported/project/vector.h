#ifndef VECTOR_H
#define VECTOR_H

/* A vector that is dealt out in blocks. */
typedef struct {
    int n, first, count;
    float *part;
} vector;

vector *vector_new(int n);
void vector_free(vector *v);
double vector_norm(const vector *v);

#endif
