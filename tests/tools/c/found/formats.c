/* Formats that are rarer, and numbers with all of their digits. */
#include <stdio.h>
#include <stdlib.h>
#include <wchar.h>

#include "bsp.h"

int main(void)
{
    int count, number = 0, behind = 0;
    long double third = 0.25L;
    double sum = 0.0;
    char word[8];
    bsp_begin(bsp_nprocs());
    if (bsp_pid() == 0) {
        printf("[%.17g] [%.20f] [%.0f]\n", 0.1, 0.1, 1e23);
        printf("[%8.3Lf] [%Lg] [%ls] [%lc]%n\n", third, third, L"wide", L'x', &count);
        printf("%d [%a] [%+.3i] [%#o] [%-6hhd] [%zu]\n", count, 10.5, 7, 8, 300, sizeof(long));
        count = sscanf("  12 of 0x1F, then 0.1e0 [ab]", "%d of %i, then %lf %*[[]%7[a-z]%n", &number, &behind, &sum, word, &count);
        printf("%d: %d %d %.17g %s\n", count, number, behind, sum, word);
        printf("%d\n", strtod("9007199254740993.0000000000001", NULL) == 9007199254740994.0);
    }
    bsp_end();
    return 0;
}
