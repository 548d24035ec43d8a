/* A picture is read, blurred by rows, and written. */
#include <bsp.h>
#include <stdio.h>
#include <stdlib.h>

static unsigned char in[64][64], out[64][64];

int main(int argc, char **argv)
{
    char kind[3];
    int w, h, most, y, x, dx, dy;
    FILE *file;
    bsp_begin(bsp_nprocs());
    file = fopen("small.pgm", "rb");
    if (file == NULL || fscanf(file, "%2s %d %d %d", kind, &w, &h, &most) != 4)
        bsp_abort("no picture\n");
    for (y = 0; y < h; y++)
        for (x = 0; x < w; x++) {
            int value;
            if (fscanf(file, "%d", &value) != 1)
                bsp_abort("the picture ends\n");
            in[y][x] = (unsigned char)value;
        }
    fclose(file);
    bsp_push_reg(out, sizeof out);
    bsp_sync();
    for (y = bsp_pid(); y < h; y += bsp_nprocs()) {
        unsigned char row[64];
        for (x = 0; x < w; x++) {
            int sum = 0, n = 0;
            for (dy = -1; dy <= 1; dy++)
                for (dx = -1; dx <= 1; dx++)
                    if (y + dy >= 0 && y + dy < h && x + dx >= 0 && x + dx < w)
                        sum += in[y + dy][x + dx], n++;
            row[x] = (unsigned char)(sum / n);
        }
        bsp_put(0, row, out, y * 64, w);
    }
    bsp_sync();
    if (bsp_pid() == 0) {
        file = fopen("blurred.pgm", "wb");
        fprintf(file, "%s\n%d %d\n%d\n", kind, w, h, most);
        for (y = 0; y < h; y++)
            for (x = 0; x < w; x++)
                fprintf(file, "%d%c", out[y][x], x + 1 < w ? ' ' : '\n');
        if (fclose(file) == 0)
            printf("%d by %d\n", w, h);
    }
    bsp_end();
    return 0;
}
