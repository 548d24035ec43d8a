/* Points in a plane are parted into groups by their means. */
#include <bsp.h>
#include <stdio.h>
#include <string.h>

enum { POINTS = 40, GROUPS = 3, STEPS = 10 };
struct sums {
    double x[GROUPS], y[GROUPS];
    int count[GROUPS];
};

int main(void)
{
    double x[POINTS], y[POINTS], cx[GROUPS] = {0, 5, 9}, cy[GROUPS] = {0, 5, 1};
    struct sums mine, all[16];
    int i, g, t, step;
    bsp_begin(bsp_nprocs());
    for (i = 0; i < POINTS; i++) {
        x[i] = (i * 29 % 40) / 4.0;
        y[i] = (i * 17 % 23) / 3.0;
    }
    bsp_push_reg(all, sizeof all);
    bsp_sync();
    for (step = 0; step < STEPS; step++) {
        memset(&mine, 0, sizeof mine);
        for (i = bsp_pid(); i < POINTS; i += bsp_nprocs()) {
            int near = 0;
            double least = 1e30;
            for (g = 0; g < GROUPS; g++) {
                double far = (x[i] - cx[g]) * (x[i] - cx[g]) + (y[i] - cy[g]) * (y[i] - cy[g]);
                if (far < least)
                    least = far, near = g;
            }
            mine.x[near] += x[i];
            mine.y[near] += y[i];
            mine.count[near]++;
        }
        for (t = 0; t < bsp_nprocs(); t++)
            bsp_put(t, &mine, all, bsp_pid() * (int)sizeof mine, sizeof mine);
        bsp_sync();
        for (g = 0; g < GROUPS; g++) {
            double sx = 0, sy = 0;
            int n = 0;
            for (t = 0; t < bsp_nprocs(); t++)
                sx += all[t].x[g], sy += all[t].y[g], n += all[t].count[g];
            if (n > 0)
                cx[g] = sx / n, cy[g] = sy / n;
        }
    }
    if (bsp_pid() == 0)
        for (g = 0; g < GROUPS; g++)
            printf("(%.3f, %.3f)\n", cx[g], cy[g]);
    bsp_end();
    return 0;
}
