/* Mistakes that pass in silence elsewhere: one for each number that is the first argument, which bsprun names. A mistake of number N has
   its line marked. */
#include <bsp.h>
#include <stdio.h>
#include <stdlib.h>
#include <string.h>
#include <time.h>

/* Hides from the compiler that a program is wrong. */
static void *volatile hidden;
static void *hide(void *place)
{
    hidden = place;
    return hidden;
}

static void files(int number)
{
    FILE *file = NULL;
    if (number == 2)
        file = fopen("life.pgm", "w"); /* 2 */
    else if (number == 3)
        file = fopen("params.cfg", "r"); /* 3 */
    else if (number == 4)
        file = fopen("here.cfg", "r"); /* 4 */
    if (number >= 2 && number <= 4 && file == NULL)
        perror("no file");
}

static void memory(int number)
{
    char *bytes = hide(malloc(10));
    int i, sum = 0;
    if (number == 7) {
        strcpy(bytes, hide("ten bytes!"));
        free(bytes); /* 7 */
    } else if (number == 8) {
        free(bytes);
        free(hide(bytes)); /* 8 */
    } else if (number == 9) {
        free(hide(&sum)); /* 9 */
    } else if (number == 10) {
        memset(hide(NULL), 0, 8);
        bsp_sync(); /* 10 */
    } else if (number == 13) {
        strcpy(bytes, hide("ten bytes!"));
        bsp_sync(); /* 13 */
    } else if (number == 14) {
        for (i = 0; i < 10; i++)
            sum += bytes[i]; /* 14 */
        printf("%d\n", sum);
    }
}

static void messages(int number, int s, int p)
{
    double value = 1.0, area[64];
    int tag = 4, got = 0;
    bsp_push_reg(area, sizeof area);
    bsp_sync();
    if (number == 5) {
        bsp_send(0, NULL, &s, sizeof s); /* 5 */
    } else if (number == 15) {
        bsp_send((s + 1) % p, NULL, &s, sizeof s);
        bsp_sync();
        bsp_sync();
        bsp_move(&got, sizeof got); /* 15 */
    } else if (number == 16) {
        bsp_set_tagsize(&tag);
        bsp_send((s + 1) % p, &s, &s, sizeof s); /* 16 */
        bsp_sync();
    } else if (number == 17) {
        bsp_put(0, &value, area, s, sizeof value); /* 17 */
        bsp_sync();
    } else if (number == 18) {
        bsp_put((s + 1) % p, &value, area, s, sizeof value); /* 18 */
        bsp_sync();
    } else if (number == 19) {
        bsp_get((s + 1) % p, area, 0, &value, sizeof value);
        area[1] = value / 2; /* 19 */
        bsp_sync();
    }
}

int main(int argc, char **argv)
{
    int number, count = 0;
    bsp_begin(bsp_nprocs());
    number = atoi(argv[1]); /* 6 */
    if (number == 1 && malloc(100000000) == NULL) /* 1 */
        printf("no memory\n");
    else if (number == 11)
        printf("%d numbers\n", scanf("%d", &count)); /* 11 */
    else if (number == 12) {
        time_t start = time(NULL);
        while (time(NULL) - start < 10) /* 12 */
            count++;
    }
    files(number);
    memory(number);
    messages(number, bsp_pid(), bsp_nprocs());
    bsp_end();
    return argc > 5;
}
