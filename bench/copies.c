/* The copies that a run of total.s makes, and nothing else: 64 nodes, of which each puts 64 KiB into the area of every other one, ten
 * times. The bytes of a put are copied into a block of their own, which is taken once, and from there to where they land. As in the
 * run, threads are started for the puts and again for the landings, by one thread, from the last nodes on, and joined after each.
 * Usage: copies THREADS */
#include <pthread.h>
#include <stdlib.h>
#include <string.h>

enum { NODES = 64, TURNS = 10, SIZE = 65536 };

static unsigned char *source[NODES];      /* SIZE bytes of each node */
static unsigned char *area[NODES];        /* SIZE bytes from each node to one */
static unsigned char *put[NODES][NODES];  /* from one node to another */

struct share {
    int first, end; /* these nodes */
    int threads;
    void (*work)(int node);
};

static void *room(size_t size)
{
    void *block = malloc(size);
    if (block == NULL)
        exit(1);
    return block;
}

static void make_puts(int node)
{
    for (int target = 0; target < NODES; target++)
        if (target != node) {
            if (put[node][target] == NULL)
                put[node][target] = room(SIZE);
            memcpy(put[node][target], source[node], SIZE);
        }
}

static void land_puts(int node)
{
    for (int from = 0; from < NODES; from++)
        if (from != node)
            memcpy(area[node] + (size_t)from * SIZE, put[from][node], SIZE);
}

static void *work_on(void *argument)
{
    const struct share *all = argument;
    if (all->threads < 2) {
        for (int node = all->first; node < all->end; node++)
            all->work(node);
        return NULL;
    }
    int start = all->end - (all->end - all->first) / all->threads;
    struct share here = {all->first, start, all->threads - 1, all->work};
    struct share last = {start, all->end, 1, all->work};
    pthread_t thread;
    if (pthread_create(&thread, NULL, work_on, &last) != 0)
        exit(1);
    work_on(&here);
    pthread_join(thread, NULL);
    return NULL;
}

int main(int count, char **words)
{
    int threads = count > 1 ? atoi(words[1]) : 1;
    for (int node = 0; node < NODES; node++) {
        source[node] = memset(room(SIZE), node + 1, SIZE);
        area[node] = room((size_t)NODES * SIZE);
    }
    struct share puts = {0, NODES, threads, make_puts}, landings = {0, NODES, threads, land_puts};
    for (int turn = 0; turn < TURNS; turn++) {
        work_on(&puts);
        work_on(&landings);
    }
    return area[0][SIZE] != 2;
}
