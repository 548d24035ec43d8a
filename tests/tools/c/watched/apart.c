/* What goes to standard output and what to standard error, by all ways to write, also bytes that look like marks and reports. */
#include <bsp.h>
#include <err.h>
#include <stdio.h>
#include <unistd.h>

static const char like_a_mark[] = "\0bsprun\2\24\0\0\0marks";

int main(void)
{
    bsp_begin(bsp_nprocs());
    printf("out");
    fprintf(stderr, "error");
    putchar('\n');
    putc('\n', stderr);
    fwrite(like_a_mark, 1, sizeof like_a_mark, stdout);
    fwrite(like_a_mark, 1, sizeof like_a_mark, stderr);
    for (int i = 0; i < 300; i++) {
        putc('o', stdout);
        putc('e', stderr);
    }
    write(1, "first\n", 6);
    write(2, "second\n", 7);
    dprintf(2, "%d\n", 3);
    warnx("fourth");
    bsp_sync();
    printf("superstep 0: w 1 h 0 m 0 last\ntotal 1\nended\n");
    bsp_sync();
    printf("superstep 0: w 1");
    fflush(stdout);
    bsp_abort("it is given up\n");
}
