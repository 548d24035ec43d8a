/* What C leaves open, one case for each number that it reads: bspcc --check has a line for each. */
#include <limits.h>
#include <stdio.h>

#include "bsp.h"

static int table[5];

int main(void)
{
    int number, zero = 0;
    long many = 50000;
    double large = 1e10;
    char *bytes = (char *)table;
    bsp_begin(bsp_nprocs());
    bsp_sync();
    if (scanf("%d %d", &number, &zero) != 2)
        return 1;
    switch (number) {
    case 1:
        printf("%ld\n", many * (many + zero)); /* 1 */
        break;
    case 2:
        table[5 + zero] = 1; /* 2 */
        break;
    case 3:
        printf("%d\n", 7 / zero); /* 3 */
        break;
    case 4:
        printf("%d\n", 1 << (40 + zero)); /* 4 */
        break;
    case 5:
        printf("%d\n", *(int *)(long)zero); /* 5 */
        break;
    case 6:
        printf("%d\n", (int)(large + zero)); /* 6 */
        break;
    case 7:
        printf("%d\n", *(int *)(bytes + 1 + zero)); /* 7 */
        break;
    case 8: {
        int none[zero]; /* 8 */
        none[0] = number;
        printf("%d\n", none[0]);
        break;
    }
    case 9:
        printf("%lld\n", LLONG_MAX - zero + number); /* 9 */
        break;
    case 10:
        printf("%d\n", (INT_MIN + zero) / (zero - 1)); /* 10 */
        break;
    case 11:
        printf("%d\n", -(INT_MIN + zero)); /* 11 */
        break;
    default:
        printf("all is well: %u\n", 3000000000u + 3000000000u + (unsigned)zero);
    }
    bsp_end();
    return 0;
}
