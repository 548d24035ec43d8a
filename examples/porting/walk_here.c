/*
 * walk.c -- random walkers on a ring of cells
 *
 * Every processor moves its share of the walkers and counts how many end on each cell; processor 0 adds up
 * the counts, prints some figures and writes the counts to a file.
 *
 *      walk <processors> <parameters>
 */
#include <bsp.h>
#include <stdio.h>
#include <stdlib.h>
#include <string.h>

#define MAXCELLS 500000

int nprocs;
char *parameters;

long cells, walkers, steps;
unsigned long long seed;

/* a linear congruential generator, Knuth's MMIX */
long roll(long sides)
{
    seed = seed * 6364136223846793005ULL + 1442695040888963407ULL;
    return (long)(seed >> 33) % sides;
}

void read_parameters(void)
{
    FILE *file = fopen(parameters, "r");

    if (file == NULL)
        bsp_abort("cannot read %s\n", parameters);
    if (fscanf(file, "%ld %ld %ld %llu", &cells, &walkers, &steps, &seed) != 4 || cells > MAXCELLS)
        bsp_abort("bad parameters in %s\n", parameters);
    fclose(file);
}

void walk(int *count, int p, int s)
{
    long w, i;

    for (w = s; w < walkers; w += p) {
        long at = w * cells / walkers;

        seed = seed + w;
        for (i = 0; i < steps; i++)
            at = (at + roll(3) - 1 + cells) % cells;
        count[at]++;
    }
}

void spmd(void)
{
    static int count[MAXCELLS];
    int *all = NULL;
    int p, s, t;
    long i, fullest = 0;
    long long moment = 0;
    double start;
    FILE *out;

    bsp_begin(nprocs);
    p = bsp_nprocs();
    s = bsp_pid();
    memset(count, 0, sizeof(count));
    read_parameters();

    if (s == 0)
        all = malloc((size_t)p * cells * sizeof(int));
    bsp_push_reg(all, s == 0 ? p * cells * sizeof(int) : 0);
    bsp_sync();

    start = bsp_time();
    walk(count, p, s);
    bsp_put(0, count, all, s * cells * sizeof(int), cells * sizeof(int));
    bsp_sync();

    if (s == 0) {
        for (t = 1; t < p; t++)
            for (i = 0; i < cells; i++)
                all[i] += all[t * cells + i];
        for (i = 0; i < cells; i++) {
            if (all[i] > all[fullest])
                fullest = i;
            moment += (long long)all[i] * i * i;
        }
        out = fopen("counts.txt", "w");
        for (i = 0; i < cells; i++)
            if (all[i] > 0)
                fprintf(out, "%ld %d\n", i, all[i]);
        fclose(out);
        printf("%ld walkers, fullest cell %ld with %d, moment %lld\n", walkers, fullest, all[fullest], moment);
        printf("%d processors, %.3f seconds\n", p, bsp_time() - start);
    }
    bsp_pop_reg(all);
    bsp_end();
}

int main(int argc, char **argv)
{
    nprocs = atoi(argv[1]);
    parameters = argv[2];
    bsp_init(spmd, argc, argv);
    spmd();
    return 0;
}
