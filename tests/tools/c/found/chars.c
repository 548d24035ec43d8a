/* A program that takes char for a number with a sign, as it is on the machines that most programs come from. */
#include <ctype.h>
#include <limits.h>
#include <stdio.h>
#include <string.h>

#include "bsp.h"

int main(void)
{
    signed char steps[] = {1, 0, -1, -1};
    char least = CHAR_MIN, byte, text[] = "na\357ve caf\351";
    int letters = 0, others = 0, bytes = 0, sum = 0, i;
    bsp_begin(bsp_nprocs());
    for (i = 0; i < (int)strlen(text); i++) {
        letters += isalpha(text[i]) != 0;
        others += text[i] < 0;
    }
    for (i = 0; i < 4; i++)
        sum += steps[i] * (char)-3;
    /* Ends where char has a sign, and at the end of the input. */
    while ((byte = getchar()) != EOF)
        bytes += isspace(byte) == 0;
    printf("%d letters, %d below 0, least %d, sum %d, %d bytes\n", letters, others, least, sum, bytes);
    bsp_end();
    return 0;
}
