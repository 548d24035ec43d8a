/* Pi by a rule of midpoints and by random points. */
#include <bsp.h>
#include <math.h>
#include <stdio.h>
#include <stdlib.h>
#include <sys/time.h>
#include <time.h>

static double now(void)
{
    struct timeval tv;
    gettimeofday(&tv, NULL);
    return tv.tv_sec + tv.tv_usec * 1e-6;
}

int main(int argc, char *argv[])
{
    int n = argc > 1 ? atoi(argv[1]) : 400, hits = 0, i;
    double start = now(), part = 0, *parts, pi = 0;
    bsp_begin(bsp_nprocs());
    parts = calloc(bsp_nprocs(), sizeof *parts);
    bsp_push_reg(parts, bsp_nprocs() * sizeof *parts);
    bsp_sync();
    srand(time(NULL) + bsp_pid());
    for (i = bsp_pid(); i < n; i += bsp_nprocs()) {
        double x = (i + 0.5) / n, rx = rand() / (double)RAND_MAX, ry = rand() / (double)RAND_MAX;
        part += 4 / (1 + x * x) / n;
        hits += rx * rx + ry * ry <= 1;
    }
    bsp_put(0, &part, parts, bsp_pid() * sizeof part, sizeof part);
    bsp_sync();
    if (bsp_pid() == 0) {
        for (i = 0; i < bsp_nprocs(); i++)
            pi += parts[i];
        printf("pi is about %.4f, and random points are %s\n", pi, hits > 0 ? "there" : "missing");
        printf("%.2f seconds\n", now() - start);
    }
    bsp_end();
    return 0;
}
