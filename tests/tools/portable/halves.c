/* Ranks put whole words into one word, of which the first two bytes and the last one differ. */
#include <bsp.h>
#include <stdio.h>

static unsigned char word[4];

int main(void)
{
    unsigned char mine[4] = {0, 0, 9, 0};
    bsp_begin(bsp_nprocs());
    mine[0] = mine[1] = mine[3] = (unsigned char)(1 + bsp_pid());
    bsp_push_reg(word, sizeof word);
    bsp_sync();
    bsp_put(1, mine, word, 0, sizeof mine); /* here */
    bsp_sync();
    if (bsp_pid() == 1)
        printf("%d\n", word[0]);
    bsp_end();
    return 0;
}
