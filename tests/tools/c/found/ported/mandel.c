/* The Mandelbrot set in characters, by rows that are dealt out in turn, and as a PPM file. */
#include <bsp.h>
#include <complex.h>
#include <stdio.h>
#include <stdlib.h>
enum { W = 40, H = 20, MAX = 60 };
static unsigned char image[H][W];
int main(int argc, char **argv)
{
    bsp_begin(bsp_nprocs());
    const int p = bsp_nprocs(), s = bsp_pid();
    bsp_push_reg(image, sizeof image);
    bsp_sync();
    for (int r = s; r < H; r += p) {
        unsigned char line[W];
        for (int c = 0; c < W; c++) {
            double complex z = 0, k = (-2.2 + 3.2 * c / W) + (-1.2 + 2.4 * r / H) * I;
            int i = 0;
            while (i < MAX && creal(z) * creal(z) + cimag(z) * cimag(z) <= 4.0) {
                z = z * z + k;
                i++;
            }
            line[c] = (unsigned char)i;
        }
        bsp_put(0, line, image, r * W, W);
    }
    bsp_sync();
    if (s == 0) {
        FILE *out = argc > 1 ? fopen(argv[1], "wb") : NULL;
        for (int r = 0; r < H; r++) {
            for (int c = 0; c < W; c++)
                putchar(" .:-=+*#%@"[image[r][c] * 9 / MAX]);
            putchar('\n');
        }
        if (out) {
            fprintf(out, "P6 %d %d 255\n", W, H);
            for (int r = 0; r < H; r++)
                for (int c = 0; c < W; c++) {
                    unsigned char rgb[3] = {image[r][c], (unsigned char)(4 * image[r][c]), (unsigned char)(255 - 4 * image[r][c])};
                    fwrite(rgb, 1, 3, out);
                }
            printf("%ld bytes\n", ftell(out));
            fclose(out);
        }
    }
    bsp_end();
    return 0;
}
