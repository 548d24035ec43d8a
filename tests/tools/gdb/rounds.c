/* What tests/tools/gdb/run looks at: each rank hands a pair on to the next one, round after round. */
#include <bsp.h>
#include <stdio.h>

#define ROUNDS 4

struct pair {
    int from;
    int numbers[ROUNDS];
};

static struct pair mine, received;
static int seen = 0;

static int twice(int number)
{
    int result = number + number;
    return result;
}

static void note(int round)
{
    int tag = round;
    bsp_send(0, &tag, &mine.numbers[round], sizeof(int));
}

int main(void)
{
    int p, s, size = sizeof(int);

    bsp_begin(bsp_nprocs());
    p = bsp_nprocs();
    s = bsp_pid();
    mine.from = s;
    bsp_set_tagsize(&size);
    bsp_push_reg(&received, sizeof received);
    bsp_sync();
    for (int round = 0; round < ROUNDS; round++) {
        mine.numbers[round] = twice(10 * s + round);
        bsp_put((s + 1) % p, &mine, &received, 0, sizeof mine);
        note(round);
        printf("rank %d has made round %d\n", s, round);
        bsp_sync();
        seen += received.numbers[round];
    }
#ifdef TRAP
    if (s == 1)
        __asm__ volatile("ebreak");
#endif
#ifdef LOOP
    for (int i = 0; i < LOOP; i++) {
#ifdef WORK
        for (int k = 0; k < WORK; k++)
            mine.from++;
        printf("rank %d has worked\n", s);
#endif
        bsp_sync();
    }
    while (seen != -1)
        mine.from++;
#endif
    bsp_end();
    return 0;
}
