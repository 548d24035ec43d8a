#include <bsp.h>
#include <math.h>
#include <stdint.h>
#include <stdio.h>
#include <stdlib.h>
#include <string.h>
/* The edges of a binary PGM picture, and the picture blurred: each rank gets its rows and those beside them. Usage: edges IN */
typedef uint8_t u8;
static u8 *img, *edge, *blur;
static int w, h;
static u8 px(const u8 *rows, int y, int x, int lo)
{
    if (x < 0)
        x = 0;
    if (x >= w)
        x = w - 1;
    if (y < 0)
        y = 0;
    if (y >= h)
        y = h - 1;
    return rows[(y - lo + 1) * w + x];
}
static void die(const char *msg)
{
    fprintf(stderr, "error: %s\n", msg);
    bsp_abort("giving up\n");
}
static void save(const char *name, const u8 *data)
{
    FILE *o = fopen(name, "wb");
    if (!o)
        die(name);
    fprintf(o, "P5 %d %d 255\n", w, h);
    if (fwrite(data, w, h, o) != (size_t)h)
        die("short write");
    fclose(o);
}
int main(int argc, char *argv[])
{
    int max, dims[2] = {0, 0};
    long size;
    char *all = NULL;
    bsp_begin(bsp_nprocs());
    int p = bsp_nprocs(), me = bsp_pid();
    bsp_push_reg(dims, sizeof dims);
    bsp_sync();
    if (me == 0) {
        FILE *f = fopen(argv[1], "rb");
        if (!f)
            die("no input");
        fseek(f, 0, SEEK_END);
        size = ftell(f);
        rewind(f);
        all = malloc(size);
        if (fread(all, 1, size, f) != (size_t)size)
            die("short read");
        fclose(f);
        int at = 0;
        if (sscanf(all, "P5 %d %d %d%n", &dims[0], &dims[1], &max, &at) != 3)
            die("bad header");
        all += at + 1;
        printf("%ld bytes, %d by %d\n", size, dims[0], dims[1]);
        for (int i = 0; i < p; i++)
            bsp_put(i, dims, dims, 0, sizeof dims);
    }
    bsp_sync();
    w = dims[0];
    h = dims[1];
    int lo = me * h / p, hi = (me + 1) * h / p, n = hi - lo;
    img = malloc(w * h);
    edge = malloc(w * h);
    blur = malloc(w * h);
    if (me == 0)
        memcpy(img, all, w * h);
    bsp_push_reg(img, w * h);
    bsp_push_reg(edge, w * h);
    bsp_push_reg(blur, w * h);
    bsp_sync();
    u8 *rows = calloc(n + 2, w), *e = malloc(n * w + 1), *b = malloc(n * w + 1);
    int from = lo > 0 ? lo - 1 : 0, to = hi < h ? hi + 1 : h;
    bsp_get(0, img, from * w, rows + (from - lo + 1) * w, (to - from) * w);
    bsp_sync();
    for (int y = lo; y < hi; y++)
        for (int x = 0; x < w; x++) {
#define P(dy, dx) px(rows, y + (dy), x + (dx), lo)
            int gx = P(-1, 1) + 2 * P(0, 1) + P(1, 1) - P(-1, -1) - 2 * P(0, -1) - P(1, -1);
            int gy = P(1, -1) + 2 * P(1, 0) + P(1, 1) - P(-1, -1) - 2 * P(-1, 0) - P(-1, 1);
            int g = (int)lrint(sqrt((double)(gx * gx + gy * gy)));
            e[(y - lo) * w + x] = g > 255 ? 255 : g;
            int sum = 0;
            for (int dy = -1; dy <= 1; dy++)
                for (int dx = -1; dx <= 1; dx++)
                    sum += P(dy, dx);
            b[(y - lo) * w + x] = sum / 9;
        }
    bsp_put(0, e, edge, lo * w, n * w);
    bsp_put(0, b, blur, lo * w, n * w);
    bsp_sync();
    if (me == 0) {
        save("edges.pgm", edge);
        save("blur.pgm", blur);
        unsigned long sum = 0;
        for (int i = 0; i < w * h; i++)
            sum += edge[i];
        printf("mean edge %.3f\n", (double)sum / (w * h));
    }
    bsp_end();
    return 0;
}
