/* Bodies that attract one another, double precision, with structures in a ring. */
#include <bsp.h>
#include <math.h>
#include <stdio.h>
#include <stdlib.h>
#include <getopt.h>
typedef struct { double pos[3], vel[3], mass; } body_t;
int main(int argc, char *argv[])
{
    int n = 8, steps = 10, opt, i, j, k, t;
    double dt = 0.01;
    while ((opt = getopt(argc, argv, "n:s:d:")) != -1)
        switch (opt) {
        case 'n': n = atoi(optarg); break;
        case 's': steps = strtol(optarg, NULL, 0); break;
        case 'd': dt = atof(optarg); break;
        default: fprintf(stderr, "usage: %s [-n bodies] [-s steps] [-d dt]\n", argv[0]); return 1;
        }
    bsp_begin(bsp_nprocs());
    int p = bsp_nprocs(), s = bsp_pid();
    body_t *b = malloc(n * sizeof(body_t));
    for (i = 0; i < n; i++) {
        b[i] = (body_t){{cos(i), sin(i), 0.1 * i}, {0, 0, 0}, 1.0 + i % 3};
    }
    bsp_push_reg(b, n * sizeof(body_t));
    bsp_sync();
    for (t = 0; t < steps; t++) {
        for (i = s; i < n; i += p) {
            body_t me = b[i];
            double acc[3] = {0, 0, 0};
            for (j = 0; j < n; j++) {
                double d[3], r2 = 1e-3;
                for (k = 0; k < 3; k++) { d[k] = b[j].pos[k] - me.pos[k]; r2 += d[k] * d[k]; }
                double f = b[j].mass / (r2 * sqrt(r2));
                for (k = 0; k < 3; k++) acc[k] += f * d[k];
            }
            for (k = 0; k < 3; k++) { me.vel[k] += dt * acc[k]; me.pos[k] += dt * me.vel[k]; }
            for (j = 0; j < p; j++) bsp_put(j, &me, b, i * sizeof me, sizeof me);
        }
        bsp_sync();
    }
    if (s == 0)
        for (i = 0; i < n; i += n / 4)
            printf("%2d % .10e % .10e % .10e\n", i, b[i].pos[0], b[i].pos[1], b[i].pos[2]);
    bsp_end();
    return 0;
}
