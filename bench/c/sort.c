/* A sort: quicksort of 16,384 numbers, where parts of at most 12 are sorted by insertion. */
#include "rounds.h"

#define COUNT 16384
#define FEW 12

static unsigned numbers[COUNT];

static void insert_all(unsigned *first, unsigned *last)
{
    for (unsigned *at = first + 1; at <= last; at++) {
        unsigned number = *at, *to = at;
        for (; to > first && to[-1] > number; to--)
            *to = to[-1];
        *to = number;
    }
}

/* The pivot is the median of the first, the middle and the last number. */
static unsigned median(unsigned a, unsigned b, unsigned c)
{
    if (a < b)
        return b < c ? b : a < c ? c : a;
    return a < c ? a : b < c ? c : b;
}

static void sort(unsigned *first, unsigned *last)
{
    while (last - first >= FEW) {
        unsigned pivot = median(*first, first[(last - first) / 2], *last);
        unsigned *low = first, *high = last;
        while (low <= high) {
            while (*low < pivot)
                low++;
            while (*high > pivot)
                high--;
            if (low <= high) {
                unsigned number = *low;
                *low++ = *high;
                *high-- = number;
            }
        }
        sort(first, high);
        first = low;
    }
    insert_all(first, last);
}

int main(void)
{
    int count = rounds(100);
    unsigned state = 1, sum = 0;

    for (int round = 0; round < count; round++) {
        for (int i = 0; i < COUNT; i++)
            numbers[i] = next_number(&state);
        sort(numbers, numbers + COUNT - 1);
        for (int i = 0; i < COUNT; i++) {
            if (i > 0 && numbers[i - 1] > numbers[i]) {
                printf("number %d is less than the one before it\n", i);
                return 1;
            }
            sum = sum * 31 + numbers[i];
        }
    }
    printf("%d numbers sorted %d times: %08x\n", COUNT, count, sum);
    return 0;
}
