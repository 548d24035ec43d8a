/* Words of a text are counted by ranks, which have the letters that they begin with. */
#include <bsp.h>
#include <ctype.h>
#include <stdio.h>
#include <stdlib.h>
#include <string.h>

struct word {
    char text[20];
    int count;
} words[100];
static int known = 0;

static int by_text(const void *a, const void *b) { return strcmp(((const struct word *)a)->text, ((const struct word *)b)->text); }

static void add(const char *text)
{
    int i;
    for (i = 0; i < known; i++)
        if (strcmp(words[i].text, text) == 0) {
            words[i].count++;
            return;
        }
    strcpy(words[known].text, text);
    words[known++].count = 1;
}

int main(void)
{
    char text[20];
    int c, length = 0, i;
    FILE *file;
    bsp_begin(bsp_nprocs());
    file = fopen("text/prose.txt", "r");
    if (file == NULL)
        bsp_abort("no prose\n");
    do {
        c = getc(file);
        if (isalpha(c) && length < 19)
            text[length++] = (char)tolower(c);
        else if (length > 0) {
            text[length] = 0;
            length = 0;
            if ((text[0] - 'a') % bsp_nprocs() == bsp_pid())
                add(text);
        }
    } while (c != EOF);
    fclose(file);
    qsort(words, (size_t)known, sizeof *words, by_text);
    for (i = 0; i < known; i++)
        printf("%-12s%2d\n", words[i].text, words[i].count);
    bsp_end();
    return 0;
}
