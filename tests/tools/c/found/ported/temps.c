/* A table of Fahrenheit and Celsius, each process its lines in their order, in C as of 1978. */
#include <stdio.h>
#include "bsp.h"
#define LOWER 0
#define UPPER 300
#define STEP 20
float celsius();
char *progname;
struct list {
    struct list *next;
    float f;
} *head = NULL;
extern char *malloc();
struct list *push(l, f)
struct list *l;
float f;
{
    register struct list *n = (struct list *)malloc(sizeof(struct list));
    n->next = l;
    n->f = f;
    return n;
}
main(argc, argv)
int argc;
char **argv;
{
    int fahr;
    struct list *p;
    progname = argv[0];
    bsp_begin(bsp_nprocs());
    for (fahr = UPPER; fahr >= LOWER; fahr = fahr - STEP)
        if (fahr / STEP % bsp_nprocs() == bsp_pid())
            head = push(head, (float)fahr);
    for (fahr = LOWER; fahr <= UPPER; fahr = fahr + STEP) {
        if (head != NULL && (int)head->f == fahr) {
            printf("%4.0f %6.1f\n", head->f, celsius(head->f));
            p = head;
            head = head->next;
            free((char *)p);
        }
        bsp_sync();
    }
    bsp_end();
    return 0;
}
float celsius(f)
float f;
{
    return (5.0 / 9.0) * (f - 32.0);
}
