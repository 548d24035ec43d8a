/* Radix sort of 16 bits, four at a time: counts go to all ranks, and then each key to its place. */
#include <bsp.h>
#include <stdint.h>
#include <stdio.h>
#include <stdlib.h>

#define KEYS 24
#define DIGITS 16

int main(int argc, char *argv[])
{
    bsp_begin(bsp_nprocs());
    unsigned p = bsp_nprocs(), s = bsp_pid();
    uint16_t *keys = malloc(KEYS * sizeof *keys), *next = calloc(KEYS, sizeof *next);
    int (*counts)[DIGITS] = calloc(p, sizeof *counts);
    uint32_t state = 2463534242u ^ s * 977u;

    for (int i = 0; i < KEYS; i++) {
        state ^= state << 13, state ^= state >> 17, state ^= state << 5;
        keys[i] = state;
    }
    bsp_push_reg(counts, p * sizeof *counts);
    bsp_push_reg(next, KEYS * sizeof *next);
    bsp_sync();
    for (int shift = 0; shift < 16; shift += 4) {
        int mine[DIGITS] = {0}, place[DIGITS], sum = 0;
        for (int i = 0; i < KEYS; i++)
            mine[keys[i] >> shift & 15]++;
        for (unsigned t = 0; t < p; t++)
            bsp_put(t, mine, counts, s * sizeof mine, sizeof mine);
        bsp_sync();
        for (int d = 0; d < DIGITS; d++)
            for (unsigned t = 0; t < p; sum += counts[t++][d])
                if (t == s)
                    place[d] = sum;
        for (int i = 0; i < KEYS; i++) {
            int to = place[keys[i] >> shift & 15]++;
            bsp_put(to / KEYS, &keys[i], next, to % KEYS * sizeof *next, sizeof *next);
        }
        bsp_sync();
        for (int i = 0; i < KEYS; i++)
            keys[i] = next[i];
    }
    for (int i = 0; i < KEYS; i += 5)
        printf("%s%5u", i ? " " : "", keys[i]);
    puts("");
    free(keys), free(next), free(counts);
    bsp_end();
    return argc < 0 || argv == NULL;
}
