/* Measures r, g and l of a computer (Bisseling, Parallel Scientific Computation, chapter 1): r by adding a multiple of a vector to another
   one, g and l by h-relations of single words. It uses only BSPlib's calls, and prints what bspprobe reads. Its arguments are the bytes of
   a word, the greatest h in words, the number of rounds, and the number of milliseconds
   for which it measures each time. */
#include <bsp.h>
#include <stdio.h>
#include <stdlib.h>

enum { VECTOR = 1024, MOST_WORD = 1 << 20, MOST_H = 1 << 16, MOST_REPEATS = 100000, TRIALS = 10 };

struct settings {
    int word, most, rounds;
    double seconds;
};

static double x[VECTOR], y[VECTOR];
static char *area, *words;
static int given_repeats;

/* What rank 0 has of this comes to all. */
static int repeats_of_all(int repeats)
{
    for (int t = 0; t < bsp_nprocs() && bsp_pid() == 0; t++)
        bsp_put(t, &repeats, &given_repeats, 0, sizeof repeats);
    bsp_sync();
    return given_repeats;
}

/* In rank 0: the longest time, since a superstep is as long as its slowest rank. */
static double longest(double seconds)
{
    static double *all;
    double most = 0.0;
    if (all == NULL)
        all = malloc((size_t)bsp_nprocs() * sizeof *all);
    if (all == NULL)
        bsp_abort("there is no memory for the times of all ranks\n");
    bsp_push_reg(all, bsp_nprocs() * (int)sizeof *all);
    bsp_sync();
    bsp_put(0, &seconds, all, bsp_pid() * (int)sizeof seconds, sizeof seconds);
    bsp_pop_reg(all);
    bsp_sync();
    for (int t = 0; t < bsp_nprocs() && bsp_pid() == 0; t++)
        most = all[t] > most ? all[t] : most;
    return most;
}

/* How often something that took some seconds is made. */
static int repeats_for(double seconds, int trials, const struct settings *settings)
{
    double wanted = seconds > 0.0 ? settings->seconds * trials / seconds : MOST_REPEATS;
    return repeats_of_all(wanted < 1.0 ? 1 : wanted > MOST_REPEATS ? MOST_REPEATS : (int)wanted);
}

/* The seconds of additions to a vector, of which each makes two operations an element. */
static double seconds_of_additions(int repeats)
{
    double begin;
    bsp_sync();
    begin = bsp_time();
    for (int repeat = 0; repeat < repeats; repeat++) {
        /* It is another number each time, so that the compiler makes each addition, and so small that the sums stay small. */
        double a = repeat % 2 ? 1e-3 : -1e-3;
        for (int i = 0; i < VECTOR; i++)
            y[i] += a * x[i];
    }
    return bsp_time() - begin;
}

/* The seconds of supersteps in which each rank puts h words, one by one, to the others in turn, and to itself where there is no other. */
static double seconds_of_relations(int h, int repeats, const struct settings *settings)
{
    int p = bsp_nprocs(), s = bsp_pid(), others = p > 1 ? p - 1 : 1;
    double begin;
    bsp_sync();
    begin = bsp_time();
    for (int repeat = 0; repeat < repeats; repeat++) {
        for (int i = 0; i < h; i++) {
            int to = p > 1 ? (s + 1 + i % others) % p : 0;
            bsp_put(to, words + i * settings->word, area, (s + i / others * p) * settings->word, settings->word);
        }
        bsp_sync();
    }
    return bsp_time() - begin;
}

/* A rank's words for another one come to places of their own. */
static void make_room(const struct settings *settings)
{
    int p = bsp_nprocs(), others = p > 1 ? p - 1 : 1;
    int places = (settings->most / others + 1) * p;
    area = calloc((size_t)places, (size_t)settings->word);
    words = calloc((size_t)settings->most + 1, (size_t)settings->word);
    if (area == NULL || words == NULL)
        bsp_abort("there is no memory for h-relations of %d words of %d bytes\n", settings->most, settings->word);
    bsp_push_reg(area, places * settings->word);
    bsp_push_reg(&given_repeats, sizeof given_repeats);
    bsp_sync();
}

/* Each time is measured once in a round, so that what disturbs a host for a while disturbs a few rounds. */
static void measure(const struct settings *settings)
{
    int additions = repeats_for(longest(seconds_of_additions(TRIALS)), TRIALS, settings);
    int relations = repeats_for(longest(seconds_of_relations(settings->most, TRIALS, settings)), TRIALS, settings);
    for (int round = 0; round < settings->rounds; round++) {
        double seconds = longest(seconds_of_additions(additions));
        if (bsp_pid() == 0)
            printf("rate %.9e\n", seconds > 0.0 ? 2.0 * VECTOR * additions / seconds : 0.0);
        for (int h = 0; h <= settings->most; h++) {
            seconds = longest(seconds_of_relations(h, relations, settings));
            if (bsp_pid() == 0)
                printf("time %d %.9e\n", h, seconds / relations);
        }
    }
}

static int number(int argc, char **argv, int at, int otherwise, int most)
{
    int found = argc > at ? atoi(argv[at]) : otherwise;
    if (found < 1 || found > most)
        bsp_abort("argument %d is a whole number from 1 to %d\n", at, most);
    return found;
}

int main(int argc, char **argv)
{
    struct settings settings;
    bsp_begin(bsp_nprocs());
    settings.word = number(argc, argv, 1, 8, MOST_WORD);
    settings.most = number(argc, argv, 2, 256, MOST_H);
    settings.rounds = number(argc, argv, 3, 20, 1000);
    settings.seconds = number(argc, argv, 4, 1, 1000) / 1000.0;
    for (int i = 0; i < VECTOR; i++)
        x[i] = y[i] = i;
    if (bsp_pid() == 0)
        printf("bspprobe 1\np %d\nword %d\nmost %d\n", bsp_nprocs(), settings.word, settings.most);
    make_room(&settings);
    measure(&settings);
    if (bsp_pid() == 0)
        printf("end %.1f\n", y[VECTOR - 1]);
    bsp_end();
    return 0;
}
