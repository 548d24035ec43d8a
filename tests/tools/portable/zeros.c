/* Memory of malloc that is taken for zeros, in a program that writes nothing. */
#include <bsp.h>
#include <stdlib.h>

int found[3];

int main(void)
{
    int i, *counts, *others;
    bsp_begin(bsp_nprocs());
    others = malloc(40);
    for (i = 0; i < 10; i++)
        others[i] = i;
    bsp_sync();
    counts = malloc(10 * sizeof *counts); /* here */
    for (i = 0; i < 10; i++)
        counts[others[i] % 3]++;
    for (i = 0; i < 3; i++)
        found[i] = counts[i];
    bsp_end();
    return 0;
}
