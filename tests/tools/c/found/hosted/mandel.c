/* Mandelbrot's set in letters; lines go to rank 0 as messages with their numbers. */
#include <bsp.h>
#include <stdio.h>

enum { W = 48, H = 16 };

int main(void)
{
    static char lines[H][W + 1];
    int size = sizeof(int), y, x, n, count, bytes, status;
    bsp_begin(bsp_nprocs());
    bsp_set_tagsize(&size);
    bsp_sync();
    for (y = bsp_pid(); y < H; y += bsp_nprocs()) {
        char line[W + 1];
        for (x = 0; x < W; x++) {
            double a = -2.2 + 3.0 * x / W, b = -1.2 + 2.4 * y / H, u = 0, v = 0;
            for (n = 0; n < 30 && u * u + v * v < 4; n++) {
                double next = u * u - v * v + a;
                v = 2 * u * v + b;
                u = next;
            }
            line[x] = " .:-=+*#%@"[n * 9 / 30];
        }
        line[W] = 0;
        bsp_send(0, &y, line, W + 1);
    }
    bsp_sync();
    bsp_qsize(&count, &bytes);
    while (count-- > 0) {
        bsp_get_tag(&status, &y);
        bsp_move(lines[y], status);
    }
    if (bsp_pid() == 0)
        for (y = 0; y < H; y++)
            puts(lines[y]);
    bsp_end();
    return 0;
}
