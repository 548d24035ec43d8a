/* Writes files in the ways that programs have: one by rank 0, one by all ranks in turn, one for each rank, binary ones with places that are
   written twice, and some that are read again. */
#include <bsp.h>
#include <stdio.h>
#include <stdlib.h>
#include <string.h>
#include <sys/stat.h>
#include <unistd.h>

static int s, p;

static FILE *opened(const char *name, const char *mode)
{
    FILE *file = fopen(name, mode);
    if (file == NULL) {
        fprintf(stderr, "rank %d: %s: ", s, name);
        perror(NULL);
        bsp_abort("no file\n");
    }
    return file;
}

/* A picture, with its header written last. */
static void picture(void)
{
    FILE *file = opened("out/life.pgm", "wb");
    int i;
    fprintf(file, "P5\n00 00\n255\n");
    for (i = 0; i < 64; i++)
        fputc(i, file);
    rewind(file);
    fprintf(file, "P5\n08 08\n255\n");
    fclose(file);
}

/* Each rank adds its lines to one file. */
static void lines(void)
{
    int turn;
    for (turn = 0; turn < p; turn++) {
        if (turn == s) {
            FILE *file = opened("lines.txt", s == 0 ? "w" : "a");
            fprintf(file, "line of rank %d\n", s);
            fclose(file);
        }
        bsp_sync();
    }
}

/* A file that is read again, and then taken away or given another name. */
static void again(void)
{
    double values[4] = {1.5, 2.5, 3.5, s}, found[4];
    char line[40];
    FILE *file = opened("values.bin", "w+b");
    fwrite(values, sizeof *values, 4, file);
    fseek(file, 2 * sizeof *values, SEEK_SET);
    if (fread(found, sizeof *found, 2, file) != 2 || found[0] != 3.5 || found[1] != s)
        bsp_abort("values.bin is wrong\n");
    fclose(file);
    file = opened("values.bin", "rb");
    if (fread(found, sizeof *found, 4, file) != 4 || memcmp(values, found, sizeof values) != 0 || fgetc(file) != EOF)
        bsp_abort("values.bin is wrong, read again\n");
    fclose(file);
    remove("values.bin");
    if (fopen("values.bin", "rb") != NULL)
        bsp_abort("values.bin is there still\n");
    file = tmpfile();
    fprintf(file, "for a while");
    rewind(file);
    if (fgets(line, sizeof line, file) == NULL || strcmp(line, "for a while") != 0)
        bsp_abort("the file without a name is wrong\n");
    fclose(file);
}

int main(void)
{
    char name[40], other[40];
    FILE *file;
    struct stat about;
    bsp_begin(bsp_nprocs());
    s = bsp_pid();
    p = bsp_nprocs();
    mkdir("out", 0777);
    if (s == 0)
        picture();
    lines();
    again();
    snprintf(name, sizeof name, "part%d.txt", s);
    file = opened(name, "w");
    setvbuf(file, NULL, _IOLBF, 0);
    fprintf(file, "%d\n", s);
    if (stat(name, &about) == 0)
        fprintf(file, "%ld bytes\n", (long)about.st_size);
    fclose(file);
    snprintf(other, sizeof other, "%s.new", name);
    rename(name, other);
    file = fopen("/dev/stdout", "w");
    fprintf(file, "rank %d is done\n", s);
    fclose(file);
    if (freopen("log.txt", "w", stdout) != NULL)
        printf("log of rank %d\n", s);
    bsp_end();
    return 0; /* and files are closed */
}
