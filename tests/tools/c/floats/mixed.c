/* Floats, doubles and whole numbers in one expression, each rounded to its own type. */
#include "show.h"

static volatile float third = 1.0f / 3, tenth = 0.1f, big = 16777216.0f;
static volatile double exact_third = 1.0 / 3, one = 1.0;
static volatile int seven = 7;
static volatile unsigned char byte = 200;

int main(void)
{
    float sum = 0;
    printf("%d\n", (int)FLT_EVAL_METHOD);
    show_float("float * float", third * tenth);
    show("float * float, as a double", (double)third * tenth);
    show("float + double", third + exact_third);
    show("float - double", third - exact_third);
    show_float("float + int", third + seven);
    show("double + float * int", one + tenth * seven);
    show_float("byte / float", byte / third);
    show_float("big + 1", big + 1);
    show("big + 1.0", big + 1.0);
    printf("%d %d\n", big + 1.0f == big, big + 1.0 == big);
    printf("%d %d %d\n", tenth == 0.1, tenth == 0.1f, (double)tenth > 0.1);
    for (int i = 0; i < 100; i++)
        sum += 0.1;
    show_float("a float, to which doubles are added", sum);
    sum = 1;
    for (int i = 1; i < 40; i++) {
        sum *= 1 + 1.0 / i;
        sum -= third;
    }
    show_float("a float, by doubles", sum);
    int whole = 100;
    whole *= 1.7f;
    whole += 0.9;
    whole /= 0.3;
    printf("%d\n", whole);
    byte += 1.5;
    printf("%d\n", byte);
    show("condition", seven > 3 ? third : exact_third);
    show("condition", seven > 30 ? tenth : seven);
    return 0;
}
