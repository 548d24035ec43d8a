/* What a rank writes to standard output: a file in memory keeps it until the superstep is over. */
#define _GNU_SOURCE
#include "native.h"

#include <errno.h>
#include <stdio.h>
#include <sys/mman.h>
#include <unistd.h>

enum { BLOCK = 1 << 16 };

static int own_file;
static int64_t looked_at, last_end;

int output_new_file(void)
{
    return memfd_create("standard output of a rank", MFD_CLOEXEC);
}

/* Each line is there as soon as it is printed, also where the rank is stopped by a signal. */
void output_capture(int file)
{
    own_file = file;
    dup2(file, STDOUT_FILENO);
    setvbuf(stdout, NULL, _IOLBF, BUFSIZ);
}

/* The place behind the last line that ends between two places, or `otherwise`. */
static int64_t behind_last_line(int64_t begin, int64_t end, int64_t otherwise)
{
    char block[4096];
    while (end > begin) {
        size_t size = end - begin < (int64_t)sizeof block ? (size_t)(end - begin) : sizeof block;
        ssize_t count = pread(own_file, block, size, end - (int64_t)size);
        if (count != (ssize_t)size)
            stop(STATUS_WRITE_FAILED, "what was printed cannot be read back");
        while (size > 0)
            if (block[--size] == '\n')
                return end - count + (int64_t)size + 1;
        end -= count;
    }
    return otherwise;
}

int64_t output_end(int has_ended)
{
    int64_t end;
    if (fflush(stdout) != 0)
        stop(STATUS_WRITE_FAILED, "no memory is left for what is printed");
    end = lseek(own_file, 0, SEEK_END);
    if (has_ended)
        return end;
    if (end > looked_at) {
        last_end = behind_last_line(looked_at, end, last_end);
        looked_at = end;
    }
    return last_end;
}

int output_copy(int from, int64_t begin, int64_t end, int to)
{
    static char block[BLOCK];
    while (begin < end) {
        size_t size = end - begin < BLOCK ? (size_t)(end - begin) : BLOCK;
        ssize_t count = pread(from, block, size, begin);
        if (count > 0)
            count = write(to, block, (size_t)count);
        if (count < 0 && errno != EINTR)
            return -1;
        begin += count > 0 ? count : 0;
    }
    return 0;
}
