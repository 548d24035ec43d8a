/* A computation that writes its state each few steps under another name, renames it, and begins again from the file. */
#include <bsp.h>
#include <errno.h>
#include <stdio.h>
#include <stdlib.h>
#include <string.h>

static double cells[8];
static int step;

static void save(const char *name)
{
    char fresh[64];
    FILE *file;
    snprintf(fresh, sizeof fresh, "%s.new", name);
    file = fopen(fresh, "wb");
    if (file == NULL || fwrite(&step, sizeof step, 1, file) != 1 || fwrite(cells, sizeof *cells, 8, file) != 8 || fclose(file) != 0) {
        bsp_abort("%s: %s\n", fresh, strerror(errno));
    }
    rename(fresh, name);
}

static int restore(const char *name)
{
    FILE *file = fopen(name, "rb");
    if (file == NULL)
        return 0;
    if (fread(&step, sizeof step, 1, file) != 1 || fread(cells, sizeof *cells, 8, file) != 8)
        bsp_abort("%s is too short\n", name);
    return !fclose(file);
}

int main(void)
{
    char name[32];
    double left;

    bsp_begin(bsp_nprocs());
    int p = bsp_nprocs(), s = bsp_pid(), run;
    sprintf(name, "state%d.bin", s);
    bsp_push_reg(&left, sizeof left);
    bsp_sync();
    for (run = 0; run < 3; run++) {
        memset(cells, 0, sizeof cells);
        step = 0;
        int goes_on = restore(name);
        printf("run %d of rank %d: %s at step %d\n", run, s, goes_on ? "goes on" : "begins", step);
        for (int until = step + 4; step < until; step++) {
            bsp_put((s + 1) % p, &cells[7], &left, 0, sizeof left);
            bsp_sync();
            for (int i = 7; i > 0; i--)
                cells[i] = (cells[i] + cells[i - 1]) / 2;
            cells[0] = (left + s + step) / 2;
        }
        save(name);
    }
    printf("rank %d: %.4f %.4f\n", s, cells[0], cells[7]);
    strcat(name, ".new");
    if (remove(name) != 0)
        printf("no file of rank %d is left\n", s);
    bsp_end();
    return 0;
}
