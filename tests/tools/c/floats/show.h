/* What the programs of this folder share. They print the same on the host and on nodes, with registers of floating point and without. What
   they compute with is volatile, so that it is computed when they run. */
#ifndef SHOW_H
#define SHOW_H

#include <float.h>
#include <math.h>
#include <stdint.h>
#include <stdio.h>
#include <stdlib.h>
#include <string.h>

#define COUNT(array) ((int)(sizeof(array) / sizeof(array)[0]))

static inline uint64_t bits_of(double x)
{
    uint64_t bits;
    memcpy(&bits, &x, sizeof bits);
    return bits;
}

static inline uint32_t bits_of_float(float x)
{
    uint32_t bits;
    memcpy(&bits, &x, sizeof bits);
    return bits;
}

/* A number with its bits. Of a NaN, whose bits C leaves open, it is told that it is one. */
static inline void show(const char *what, double x)
{
    if (x != x)
        printf("%s: nan\n", what);
    else
        printf("%s: %016llx %.17g\n", what, (unsigned long long)bits_of(x), x);
}

static inline void show_float(const char *what, float x)
{
    if (x != x)
        printf("%s: nan\n", what);
    else
        printf("%s: %08x %.9g\n", what, (unsigned)bits_of_float(x), x);
}

#endif
