/* Streams over files: what is written near the beginning of a long file, bytes above 127, places, and errors. */
#include <errno.h>
#include <stdio.h>
#include <stdlib.h>
#include <string.h>
#include <unistd.h>

#include "bsp.h"

static const char high[] = "caf\303\251, \342\202\254, \377.";
static const char *const name = "files.txt";

/* The bytes of a file, and a sum of them. */
static void tell_sum(FILE *file)
{
    long size = 0, sum = 0;
    int byte;
    rewind(file);
    while ((byte = fgetc(file)) != EOF) {
        size++;
        sum = (sum * 31 + byte) % 1000003;
    }
    printf("%ld bytes, sum %ld\n", size, sum);
}

/* A file that was given is kept in a block of its own as soon as it is written. That one comes between others here. */
static void long_file(const char *given)
{
    enum { BLOCKS = 20, SIZE = 512 };
    FILE *file = fopen(given, "r+");
    char *blocks[BLOCKS], wall[SIZE];
    memset(wall, 'w', SIZE);
    for (int i = 0; i < BLOCKS; i++)
        blocks[i] = memcpy(malloc(SIZE), wall, SIZE);
    for (int i = 0; i < BLOCKS; i += 2)
        free(blocks[i]);
    fputs("here", file);
    tell_sum(file);
    for (int i = 1; i < BLOCKS; i += 2) {
        if (memcmp(blocks[i], wall, SIZE) != 0)
            printf("block %d was written\n", i);
        free(blocks[i]);
    }
    ftruncate(fileno(file), 5);
    tell_sum(file);
    fclose(file);
}

static void high_bytes(void)
{
    char text[80], line[40], *at = text;
    FILE *file = fopen(name, "w+");
    int counts[6];
    at += sprintf(at, "%s", high);
    at += snprintf(at, 40, "|%c%s", 0xe9, "\200\376\377");
    printf("%d %s\n", (int)(at - text), text);
    counts[0] = fprintf(file, "%s%c\n", high, 0xff);
    counts[1] = fputs("\351\n", file) >= 0;
    counts[2] = fputc(0xfe, file);
    counts[3] = fputc('\377', file);
    counts[4] = (int)fwrite(high, 1, sizeof high, file);
    fflush(file);
    counts[5] = dprintf(fileno(file), "%s\n", high);
    printf("%d %d %d %d %d %d, %d\n", counts[0], counts[1], counts[2], counts[3], counts[4], counts[5], ferror(file));
    rewind(file);
    while (fgets(line, sizeof line, file) != NULL)
        printf("<%s>", line);
    tell_sum(file);
    fclose(file);
    file = tmpfile();
    counts[0] = fprintf(file, "%s", high);
    counts[1] = printf("%s", high);
    counts[2] = puts("\377\376") >= 0;
    printf("%d %ld, %d %d\n", counts[0], ftell(file), counts[1], counts[2]);
    fclose(file);
}

static void tell_place(FILE *file)
{
    long place = ftell(file);
    int byte = fgetc(file);
    printf("%ld %d, ", place, byte);
}

static void places(void)
{
    FILE *file = fopen(name, "w+");
    int number = 0;
    fputs("12 abc 34", file);
    rewind(file);
    fscanf(file, "%d", &number);
    tell_place(file);
    ungetc(fgetc(file), file);
    printf("%ld, ", ftell(file));
    fseek(file, 1, SEEK_CUR);
    tell_place(file);
    ungetc('x', file);
    fseek(file, 0, SEEK_CUR);
    tell_place(file);
    ungetc('y', file);
    tell_place(file);
    /* The byte that fscanf leaves takes none of the place for what is put back. */
    fscanf(file, "%d", &number);
    printf("%d, ", ungetc('z', file));
    tell_place(file);
    tell_place(file);
    fclose(file);
    file = fopen(name, "a");
    printf("%ld, ", ftell(file));
    fseek(file, 0, SEEK_SET);
    printf("%ld, ", ftell(file));
    fputs("xyz", file);
    printf("%ld\n", ftell(file));
    fclose(file);
    file = fopen(name, "a+");
    tell_place(file);
    fseek(file, 2, SEEK_SET);
    fputs("!", file);
    printf("%ld, ", ftell(file));
    fseek(file, 12, SEEK_SET);
    tell_place(file);
    tell_place(file);
    printf("%d\n", feof(file) != 0);
    fclose(file);
}

static void memory(void)
{
    char room[12] = "abc", word[8];
    FILE *file = fmemopen(room, sizeof room, "a");
    int counts[2] = {fprintf(file, "\351 %d", 12), 0};
    fclose(file);
    file = fmemopen(room, strlen(room), "r");
    counts[1] = fscanf(file, "%7s", word);
    printf("%d ", ungetc('z', file));
    printf("%d ", fgetc(file));
    ungetc(fgetc(file), file);
    printf("%d %s, %d %s ", counts[0], room, counts[1], word);
    tell_place(file);
    fclose(file);
    file = fmemopen(room, 4, "w");
    fputs("longer", file);
    fclose(file);
    printf("%s\n", room);
}

/* Whether something was refused, and how that is told. */
static void tell_refused(FILE *file, int is_refused, int reason)
{
    printf("%d %d %d %d, ", is_refused, ferror(file) != 0, feof(file) != 0, errno == reason);
    clearerr(file);
    errno = 0;
}

static void errors(void)
{
    FILE *file = fopen(name, "r");
    char bytes[4];
    errno = 0;
    tell_refused(file, fputc('x', file) == EOF, EBADF);
    tell_refused(file, fputs("x", file) == EOF, EBADF);
    tell_refused(file, fprintf(file, "%d", 3) < 0, EBADF);
    tell_refused(file, fwrite("abc", 1, 3, file) == 0, EBADF);
    tell_refused(file, fseek(file, 0, 7) < 0, EINVAL);
    tell_refused(file, fseek(file, -1, SEEK_SET) < 0, EINVAL);
    tell_refused(file, fopen(name, "wx") == NULL, EEXIST);
    tell_place(file);
    printf("%d\n", ferror(file));
    fclose(file);
    file = fopen("other.txt", "w");
    tell_refused(file, fgetc(file) == EOF, EBADF);
    tell_refused(file, fgets(bytes, 4, file) == NULL, EBADF);
    tell_refused(file, fread(bytes, 1, 4, file) == 0, EBADF);
    tell_refused(stdout, getc(stdout) == EOF, EBADF);
    printf("%d\n", fclose(file));
    file = fopen(name, "w");
    fputs("gone", file);
    file = freopen(name, "w+", file);
    tell_sum(file);
    fclose(file);
}

int main(int count, char **words)
{
    bsp_begin(bsp_nprocs());
    if (bsp_pid() == 0 && count > 1) {
        long_file(words[1]);
        high_bytes();
        places();
        memory();
        errors();
    }
    bsp_end();
    return 0;
}
