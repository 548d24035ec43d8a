/* What the programs of this folder share. */
#ifndef RESULT_H
#define RESULT_H

#include <stddef.h>
#include <stdint.h>
#include <stdio.h>

/* One of some numbers between -1 and 1 without an order to be seen, a whole number of 2^-31. */
static inline double some_number(uint32_t at)
{
    at = (at + 1) * 0x9E3779B1u;
    at = (at ^ at >> 15) * 0x85EBCA77u;
    at = (at ^ at >> 13) * 0xC2B2AE3Du;
    return (double)(int32_t)(at ^ at >> 16) / 2147483648.0;
}

/* Prints a result to the last digit: one number of it, and a sum over the bits of all. */
static inline void print_result(const char *name, double number, const void *results, size_t size)
{
    const unsigned char *bytes = results;
    uint32_t sum = 2166136261u;

    for (size_t i = 0; i < size; i++)
        sum = (sum ^ bytes[i]) * 16777619u;
    printf("%s: %.17g, bits %08lx\n", name, number, (unsigned long)sum);
}

#endif
