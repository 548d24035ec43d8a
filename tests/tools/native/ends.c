/* An end of a native run for each number that is the first argument. */
#include <bsp.h>
#include <signal.h>
#include <stdio.h>
#include <stdlib.h>
#include <unistd.h>

static int area[4], number;

static void requests(int p, int s)
{
    int value = 0;
    if (number == 1 && s == 1)
        bsp_put(p, &value, area, 0, sizeof value);
    if (number == 2 && s == 1)
        bsp_put(0, &value, &number, 0, sizeof value);
    if (number == 3 && s == 1)
        bsp_put(0, &value, area, 12, 8);
    if (number == 4 && s == 1)
        bsp_get(0, area, 16, &value, 1);
    if (number == 5 && s == 1)
        bsp_send(0, NULL, NULL, -1);
    if (number == 6 && s == 1)
        bsp_push_reg(&value, sizeof value);
    if (number == 7 && s == 1)
        bsp_pop_reg(&value);
    if (number == 8) {
        value = s;
        bsp_set_tagsize(&value);
    }
    bsp_sync();
}

static void ends(int s)
{
    if (number == 11 && s == 1)
        bsp_abort("rank %d gives up\n", s);
    if (number == 12 && s == 1)
        raise(SIGSEGV);
    if (number == 13 && s == 1)
        exit(0);
    if (number == 14 && s == 1)
        exit(7);
    if (number == 15 && s == 1)
        _exit(9);
    if (number == 22 && s == 1)
        _exit(0);
    if (number == 16)
        exit(6);
    if (number == 17 && s == 1)
        bsp_sync();
    if (number == 18)
        for (;;)
            pause();
    if (number == 19) {
        char line[80];
        while (fgets(line, sizeof line, stdin) != NULL)
            printf("rank %d read %s", s, line);
    }
    if (number == 20)
        for (;;) {
            puts("on and on");
            bsp_sync();
        }
}

int main(int argc, char **argv)
{
    int s = bsp_pid();
    number = argc > 1 ? atoi(argv[1]) : 0;
    if (number == 9)
        bsp_sync();
    bsp_begin(number == 10 ? 0 : bsp_nprocs());
    bsp_push_reg(area, sizeof area);
    printf("rank %d began\n", s);
    bsp_sync();
    requests(bsp_nprocs(), s);
    ends(s);
    bsp_end();
    printf("rank %d ended", s);
    return number == 21 ? 5 : 0;
}
