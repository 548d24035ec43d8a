/* Counts by tagged messages, which are read where they lie. */
#include <bsp.h>
#include <stdio.h>
#include <stdlib.h>

#define BINS 10

int main(int argc, char **argv)
{
    bsp_begin(bsp_nprocs());
    int p = bsp_nprocs(), s = bsp_pid(), counts[BINS] = {0}, i, tagsize = sizeof(int);
    unsigned seed = 12345;
    bsp_set_tagsize(&tagsize);
    bsp_sync();
    for (i = 0; i < 500; i++) {
        seed = seed * 1103515245 + 12345;
        if (i % p == s)
            counts[seed >> 16 & 0x7fff ? (seed >> 16 & 0x7fff) * BINS / 32768 : 0]++;
    }
    for (i = 0; i < BINS; i++)
        if (counts[i] > 0)
            bsp_send(i % p, &i, &counts[i], sizeof(int));
    bsp_sync();
    int sums[BINS] = {0}, *tag, *payload;
    while (bsp_hpmove((void **)&tag, (void **)&payload) != -1)
        sums[*tag] += *payload;
    for (i = s; i < BINS; i += p) {
        bsp_send(0, &i, &sums[i], sizeof(int));
    }
    bsp_sync();
    if (s == 0) {
        while (bsp_hpmove((void **)&tag, (void **)&payload) != -1)
            sums[*tag] = *payload;
        for (i = 0; i < BINS; i++)
            printf("%d: %d\n", i, sums[i]);
    }
    bsp_end();
    return 0;
}
