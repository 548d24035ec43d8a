/* Prints numbers by formats that it reads, and reads what it printed; then it reads numbers. tests/tools/c/digits.py has what comes. */
#include <stdio.h>
#include <stdlib.h>
#include <string.h>

#include "bsp.h"

static unsigned long long bits_of(double number)
{
    unsigned long long bits;
    memcpy(&bits, &number, sizeof bits);
    return bits;
}

static unsigned bits_of_float(float number)
{
    unsigned bits;
    memcpy(&bits, &number, sizeof bits);
    return bits;
}

int main(void)
{
    static char text[2000], format[40];
    unsigned long long bits;
    double number;
    int count;
    bsp_begin(bsp_nprocs());
    scanf("%d", &count);
    while (count-- > 0 && scanf(" %39[^|]|%llx", format, &bits) == 2) {
        memcpy(&number, &bits, sizeof number);
        sprintf(text, format, number);
        printf("%s|%llx\n", text, bits_of(strtod(text, NULL)));
    }
    while (scanf("%1999s", text) == 1) {
        if (sscanf(text, "%lf", &number) != 1)
            puts("none");
        printf("%llx %llx %x\n", bits_of(strtod(text, NULL)), bits_of(number), bits_of_float(strtof(text, NULL)));
    }
    bsp_end();
    return 0;
}
