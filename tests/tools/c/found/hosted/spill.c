/* An external sort: runs in temporary files, merged by hand, with places that are kept and files that are renamed. */
#include <bsp.h>
#include <stdio.h>
#include <stdlib.h>
#include <string.h>
#include <unistd.h>

#define RUNS 3
#define EACH 40

static int compare(const void *a, const void *b)
{
    short x = *(const short *)a, y = *(const short *)b;
    return (x > y) - (x < y);
}

int main(void)
{
    FILE *runs[RUNS], *out;
    short block[EACH], heads[RUNS];
    int r, i, n = 0, alive = 0, s;
    char name[32], final[32], mode[] = "w+";
    fpos_t start;

    bsp_begin(bsp_nprocs());
    s = bsp_pid();
    for (r = 0; r < RUNS; r++) {
        if ((runs[r] = tmpfile()) == NULL) {
            perror("tmpfile");
            abort();
        }
        for (i = 0; i < EACH; i++)
            block[i] = (short)((i * 733 + r * 271 + s * 97) % 1000);
        qsort(block, EACH, sizeof *block, compare);
        if (fwrite(block, sizeof *block, EACH, runs[r]) != EACH || fflush(runs[r]) == EOF)
            perror("fwrite");
        rewind(runs[r]);
        alive += fread(&heads[r], sizeof *heads, 1, runs[r]);
    }
    sprintf(name, "part%d.tmp", s);
    sprintf(final, "part%d.txt", s);
    out = fopen(name, mode);
    fgetpos(out, &start);
    while (alive > 0) {
        int least = -1;
        for (r = 0; r < RUNS; r++)
            if (runs[r] && (least < 0 || heads[r] < heads[least]))
                least = r;
        fprintf(out, "%hd%c", heads[least], ++n % 12 ? ' ' : '\n');
        if (fread(&heads[least], sizeof *heads, 1, runs[least]) != 1) {
            fclose(runs[least]);
            runs[least] = NULL;
            alive--;
        }
    }
    fsetpos(out, &start);
    short before = -1, it;
    int count = 0, ordered = 1;
    while (fscanf(out, "%hd", &it) == 1) {
        ordered &= before <= it;
        before = it;
        count++;
    }
    clearerr(out);
    fseek(out, 0L, SEEK_END);
    fprintf(out, "%d\n", count);
    printf("%d: %d numbers, %s, the last is %hd, %ld bytes\n", s, count, ordered ? "ordered" : "not ordered", before, ftell(out));
    fclose(out);
    if (rename(name, final) != 0 || access(final, F_OK) != 0 || access(name, R_OK) == 0)
        perror("rename");
    if (s % 2 && unlink(final) != 0)
        perror("unlink");
    bsp_end();
    return 0;
}
