/* What the programs of this folder share. */
#ifndef ROUNDS_H
#define ROUNDS_H

#include <stdio.h>

/* How often the work is done: as often as the input says, and else `usual` times. */
static inline int rounds(int usual)
{
    int count;

    return scanf("%d", &count) == 1 ? count : usual;
}

/* The next of some numbers without an order to be seen: a xorshift of 32 bits. */
static inline unsigned next_number(unsigned *state)
{
    *state ^= *state << 13;
    *state ^= *state >> 17;
    *state ^= *state << 5;
    return *state;
}

#endif
