/* How often each letter stands in the input: the lines are dealt out to the ranks, and so are the letters. Each rank counts the
   letters of its lines, and sends each count to the rank of the letter, in a message whose tag is the letter. */
#include <bsp.h>
#include <stdio.h>

#define LETTERS 26

static int rank_of(int letter, int p)
{
    return letter * p / LETTERS;
}

int main(void)
{
    static char line[256];
    int p, s, lines = 0, tag_size = 1, size;
    int counts[LETTERS] = {0}, totals[LETTERS] = {0}, senders[LETTERS] = {0};
    void *tag, *payload;

    bsp_begin(bsp_nprocs());
    p = bsp_nprocs();
    s = bsp_pid();
    bsp_set_tagsize(&tag_size);
    while (fgets(line, sizeof line, stdin) != NULL)
        if (lines++ % p == s)
            for (char *at = line; *at != '\0'; at++) {
                int letter = (*at | 32) - 'a';
                if (letter >= 0 && letter < LETTERS)
                    counts[letter]++;
            }
    bsp_sync();

    for (int letter = 0; letter < LETTERS; letter++)
        if (counts[letter] > 0) {
            char name = (char)('a' + letter);
            bsp_send(rank_of(letter, p), &name, &counts[letter], sizeof(int));
        }
    bsp_sync();

    while ((size = bsp_hpmove(&tag, &payload)) >= 0) {
        int letter = *(char *)tag - 'a';
        if (size != sizeof(int))
            bsp_abort("a message of %d bytes\n", size);
        totals[letter] += *(int *)payload;
        senders[letter]++;
    }
    for (int letter = 0; letter < LETTERS; letter++)
        if (totals[letter] > 0)
            printf("%c: %d, from %d ranks\n", 'a' + letter, totals[letter], senders[letter]);
    bsp_end();
    return 0;
}
