/* Equalizes the histogram of a binary PGM picture. Usage: equalize IN OUT */
#include <bsp.h>
#include <ctype.h>
#include <stdio.h>
#include <stdlib.h>
#include <string.h>
static int number(FILE *f)
{
    int c, n = 0;
    while (isspace(c = getc(f)) || c == '#')
        if (c == '#')
            while ((c = getc(f)) != '\n' && c != EOF) ;
    ungetc(c, f);
    while (isdigit(c = getc(f)))
        n = 10 * n + c - '0';
    return n;
}
int main(int argc, char **argv)
{
    bsp_begin(bsp_nprocs());
    int p = bsp_nprocs(), s = bsp_pid(), w, h, i, r;
    static int counts[32][256], total[256];
    char magic[3] = "";
    FILE *f = fopen(argv[1], "rb");
    if (!f || fread(magic, 1, 2, f) != 2 || strcmp(magic, "P5"))
        bsp_abort("%s is no PGM file\n", argv[1]);
    w = number(f); h = number(f); number(f);
    int lo = h * s / p, hi = h * (s + 1) / p;
    unsigned char *mine = malloc(w * (hi - lo) + 1), *all = s == 0 ? malloc(w * h) : NULL;
    fseek(f, (long)w * lo, SEEK_CUR);
    if (fread(mine, w, hi - lo, f) != (size_t)(hi - lo))
        bsp_abort("short file\n");
    fclose(f);
    bsp_push_reg(counts, sizeof counts);
    bsp_push_reg(all, s == 0 ? w * h : 0);
    bsp_sync();
    for (i = 0; i < w * (hi - lo); i++)
        counts[s][mine[i]]++;
    for (r = 0; r < p; r++)
        bsp_put(r, counts[s], counts, s * sizeof counts[0], sizeof counts[0]);
    bsp_sync();
    for (r = 0; r < p; r++)
        for (i = 0; i < 256; i++)
            total[i] += counts[r][i];
    for (i = 1; i < 256; i++)
        total[i] += total[i - 1];
    for (i = 0; i < w * (hi - lo); i++)
        mine[i] = (unsigned char)(255L * total[mine[i]] / (w * h));
    bsp_put(0, mine, all, w * lo, w * (hi - lo));
    bsp_sync();
    if (s == 0) {
        unsigned sum = 0;
        f = fopen(argv[2], "wb");
        if (!f) { perror(argv[2]); abort(); }
        fprintf(f, "P5\n%d %d\n255\n", w, h);
        fwrite(all, 1, w * h, f);
        fclose(f);
        for (i = 0; i < w * h; i++) sum = sum * 31 + all[i];
        printf("%s: %dx%d, checksum %08x\n", argv[2], w, h, sum);
    }
    bsp_end();
    return 0;
}
