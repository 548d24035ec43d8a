/* CRC-32 and Adler-32 of a file, in pieces that are put together; tables are made at the start by a constructor. */
#include <bsp.h>
#include <stdio.h>
#include <stdlib.h>
#include <sys/types.h>
#include <sys/stat.h>
#include <fcntl.h>
#include <unistd.h>

static unsigned table[256];

__attribute__((constructor)) static void make_table(void)
{
    for (unsigned n = 0; n < 256; n++) {
        unsigned c = n;
        for (int k = 0; k < 8; k++)
            c = c & 1 ? 0xedb88320U ^ (c >> 1) : c >> 1;
        table[n] = c;
    }
}

static unsigned crc(unsigned c, const unsigned char *at, size_t n)
{
    for (c = ~c; n--; )
        c = table[(c ^ *at++) & 0xff] ^ (c >> 8);
    return ~c;
}

int main(int argc, char *argv[])
{
    struct stat about;
    unsigned char *part;
    int file, p, s, i;
    off_t each;
    static unsigned adler[2][64];

    bsp_begin(bsp_nprocs());
    p = bsp_nprocs();
    s = bsp_pid();
    bsp_push_reg(adler, sizeof adler);
    bsp_sync();
    if (argc != 2 || stat(argv[1], &about) < 0 || (file = open(argv[1], O_RDONLY)) < 0) {
        if (s == 0)
            perror(argv[1]);
        bsp_abort("usage: %s FILE\n", argv[0]);
    }
    each = (about.st_size + p - 1) / p;
    part = malloc((size_t)each);
    lseek(file, s * each, SEEK_SET);
    ssize_t n = read(file, part, (size_t)each);
    unsigned a = 0, b = 0;
    for (i = 0; i < n; i++)
        a = (a + part[i]) % 65521, b = (b + a) % 65521;
    bsp_put(0, &a, adler, s * sizeof a, sizeof a);
    bsp_put(0, &b, adler, (64 + s) * sizeof b, sizeof b);
    printf("%d: %ld bytes from %ld on, crc %08x\n", s, (long)n, (long)(s * each), crc(0, part, (size_t)n));
    bsp_sync();
    if (s == 0) {
        unsigned x = 1, y = 0;
        for (i = 0; i < p; i++) {
            long long bytes = i == p - 1 ? about.st_size - i * each : each;
            y = (unsigned)((y + x * bytes + adler[1][i]) % 65521);
            x = (x + adler[0][i]) % 65521;
        }
        printf("adler %#010x, %s file of %lld bytes\n", y << 16 | x, S_ISREG(about.st_mode) ? "regular" : "other", (long long)about.st_size);
    }
    close(file);
    free(part);
    bsp_end();
    return 0;
}
