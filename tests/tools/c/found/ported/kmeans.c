/* k-means over points of a CSV file, with strtok and strtod. */
#include <bsp.h>
#include <float.h>
#include <math.h>
#include <stdio.h>
#include <stdlib.h>
#include <string.h>

#define K 3
#define MAXPOINTS 500

typedef struct { double x, y; } point;
typedef struct { double x, y; int count, pad; } sum;

int main(int argc, char **argv)
{
    static point points[MAXPOINTS];
    static sum sums[64][K];
    point centre[K];
    char line[256];
    int n = 0, i, k, r, iter;
    FILE *csv;
    bsp_begin(bsp_nprocs());
    csv = fopen(argv[1], "rt");
    if (csv == NULL) {
        fprintf(stderr, "cannot open '%s'\n", argv[1]);
        return 1;
    }
    fgets(line, sizeof(line), csv); /* the header */
    while (fgets(line, sizeof(line), csv)) {
        char *token = strtok(line, ",;");
        points[n].x = strtod(token, NULL);
        token = strtok(NULL, ",;");
        points[n++].y = atof(token);
    }
    fclose(csv);
    for (k = 0; k < K; k++)
        centre[k] = points[k * n / K];
    bsp_push_reg(sums, sizeof(sums));
    bsp_sync();
    for (iter = 0; iter < 10; iter++) {
        sum mine[K];
        memset(mine, 0, sizeof(mine));
        for (i = bsp_pid(); i < n; i += bsp_nprocs()) {
            double best = DBL_MAX;
            int which = 0;
            for (k = 0; k < K; k++) {
                double d = hypot(points[i].x - centre[k].x, points[i].y - centre[k].y);
                if (d < best) {
                    best = d;
                    which = k;
                }
            }
            /* sums of quarters are exact */
            mine[which].x += points[i].x;
            mine[which].y += points[i].y;
            mine[which].count++;
        }
        for (r = 0; r < bsp_nprocs(); r++)
            bsp_put(r, mine, sums, bsp_pid() * sizeof(mine), sizeof(mine));
        bsp_sync();
        for (k = 0; k < K; k++) {
            sum total = {0, 0, 0, 0};
            for (r = 0; r < bsp_nprocs(); r++) {
                total.x += sums[r][k].x;
                total.y += sums[r][k].y;
                total.count += sums[r][k].count;
            }
            if (total.count) {
                centre[k].x = total.x / total.count;
                centre[k].y = total.y / total.count;
            }
            if (bsp_pid() == 0 && iter == 9)
                printf("cluster %d: %3d points around (%8.4f, %8.4f)\n", k, total.count, centre[k].x, centre[k].y);
        }
    }
    bsp_end();
    return 0;
}
