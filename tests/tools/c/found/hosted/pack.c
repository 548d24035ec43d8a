/* A file is packed by the lengths of its runs, and unpacked again, with functions of POSIX. */
#include <bsp.h>
#include <errno.h>
#include <fcntl.h>
#include <stdio.h>
#include <string.h>
#include <sys/stat.h>
#include <unistd.h>

static int pack(const char *from, const char *to)
{
    unsigned char byte, last = 0, run = 0;
    int in = open(from, O_RDONLY), out = open(to, O_WRONLY | O_CREAT | O_TRUNC, 0644), size = 0;
    if (in < 0 || out < 0)
        return -1;
    while (read(in, &byte, 1) == 1) {
        if (run > 0 && (byte != last || run == 255)) {
            unsigned char pair[2] = {run, last};
            size += (int)write(out, pair, 2);
            run = 0;
        }
        last = byte;
        run++;
    }
    if (run > 0) {
        unsigned char pair[2] = {run, last};
        size += (int)write(out, pair, 2);
    }
    close(in);
    close(out);
    return size;
}

int main(void)
{
    struct stat about;
    bsp_begin(bsp_nprocs());
    if (bsp_pid() == 0) {
        printf("%d bytes\n", pack("runs.txt", "runs.packed"));
        if (stat("runs.packed", &about) == 0)
            printf("%d bytes, %s\n", (int)about.st_size, S_ISREG(about.st_mode) ? "a file" : "no file");
        if (access("absent.txt", R_OK) != 0)
            printf("%s\n", strerror(errno));
        if (rename("runs.packed", "runs.out") != 0 || unlink("runs.packed") == 0)
            perror("rename");
    }
    bsp_end();
    return 0;
}
