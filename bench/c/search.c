/* A search of 4 words in a text of 65,536 letters a to d, after Knuth, Morris and Pratt. */
#include "rounds.h"

#define LENGTH 65536
#define MOST 16

static char text[LENGTH];
static const char *const words[] = {"abcd", "aabaabaa", "dcdcdcdc", "abacabadabac"};

/* How often the word stands in the text, overlaps counted. */
static int occurrences(const char *word)
{
    int back[MOST + 1], length = 0, count = 0, met = 0;

    back[0] = -1;
    for (int at = -1; word[length] != '\0'; back[++length] = ++at)
        while (at >= 0 && word[at] != word[length])
            at = back[at];
    for (int i = 0; i < LENGTH; i++) {
        while (met >= 0 && (met == length || word[met] != text[i]))
            met = back[met];
        if (++met == length)
            count++;
    }
    return count;
}

int main(void)
{
    int count = rounds(30), all = 0;
    unsigned state = 1;

    for (int round = 0; round < count; round++) {
        for (int i = 0; i < LENGTH; i++)
            text[i] = (char)('a' + (next_number(&state) >> 30));
        for (unsigned i = 0; i < sizeof words / sizeof *words; i++)
            all += occurrences(words[i]);
    }
    printf("words found in %d texts: %d\n", count, all);
    return 0;
}
