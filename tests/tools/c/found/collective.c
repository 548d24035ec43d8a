/* Sums and maxima of all processes, by the functions of level 1. */
#include "bsp.h"
#include "bsp_level1.h"
#include <stdio.h>
#include <string.h>

void plus(int *result, int *left, int *right, int *nbytes)
{
    *result = *left + *right;
}

void maximum(int *result, int *left, int *right, int *nbytes)
{
    for (int i = 0; i < *nbytes / (int)sizeof(int); i++)
        result[i] = left[i] > right[i] ? left[i] : right[i];
}

/* An operator that counts down the bytes that are left. */
void plus_bytes(char *result, char *left, char *right, int *nbytes)
{
    while (--*nbytes >= 0)
        result[*nbytes] = left[*nbytes] + right[*nbytes];
}

/* What the headers leave to the program: a dst that is looked at in the root alone, and parts that overlap. */
int edges(int p, int s)
{
    char ones[5] = {1, 1, 1, 1, 1}, sums[5] = {0}, given[8] = "abcdefg", *nowhere = (char *)-4;
    int numbers[256], wrong = 0;
    bsp_fold((bsp_operator)plus_bytes, ones, sums, sizeof ones);
    for (int i = 0; i < 5; i++)
        wrong += sums[i] != p;
    bsp_scan((bsp_operator)plus_bytes, ones, sums, sizeof ones);
    for (int i = 0; i < 5; i++)
        wrong += sums[i] != s + 1;
    bsp_bcast(0, given, given + 2, 6);
    wrong += memcmp(given, "ababcdef", 8) != 0;
    bsp_gather(p - 1, ones, s == p - 1 ? (char *)numbers : nowhere, 1);
    for (int t = 0; t < p && s == p - 1; t++)
        wrong += ((char *)numbers)[t] != 1;
    for (int t = 0; t < p; t++)
        numbers[t] = 1000 * s + t;
    bsp_total_exchange(numbers, numbers, sizeof(int));
    for (int t = 0; t < p; t++)
        wrong += numbers[t] != 1000 * t + s;
    for (int t = 0; t < p; t++)
        numbers[t] = t;
    bsp_scatter(0, numbers, numbers + p - 1, sizeof(int));
    return wrong + (numbers[p - 1] != s);
}

int main(int argc, char **argv)
{
    int total, before, most[2], mine, all[256], pairs[256], back[256];
    bsp_begin(bsp_nprocs());
    int p = bsp_nprocs(), s = bsp_pid(), value = 2 * s + 1, two[2] = {s, -s};
    bsp_fold((bsp_operator)plus, &value, &total, sizeof(int));
    bsp_scan((bsp_operator)plus, &value, &before, sizeof(int));
    bsp_fold((bsp_operator)maximum, two, most, sizeof two);
    bsp_gather(0, &before, all, sizeof(int));
    for (int t = 0; t < p; t++)
        pairs[t] = 1000 * s + t;
    bsp_total_exchange(pairs, back, sizeof(int));
    bsp_scatter(0, all, &mine, sizeof(int));
    int wrong = total != p * p || before != (s + 1) * (s + 1) || most[0] != p - 1 || most[1] != 0 || mine != before;
    for (int t = 0; t < p; t++)
        wrong += back[t] != 1000 * t + s;
    wrong += edges(p, s);
    bsp_fold((bsp_operator)plus, &wrong, &wrong, sizeof(int));
    if (s == 0)
        printf("%d values are wrong\n", wrong);
    bsp_end();
    return 0;
}
