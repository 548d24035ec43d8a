/* Counts words of a text: each goes to the rank of its hash, with a tag. */
#include <bsp.h>
#include <ctype.h>
#include <stdio.h>
#include <stdlib.h>
#include <string.h>
typedef struct entry { char *word; int count; struct entry *next; } entry;
static unsigned long hash(const char *t) { unsigned long h = 5381; int c; while ((c = *t++)) h = (h * 33 + c) & 0xffffffffUL; return h; }
static int by_count(const void *a, const void *b)
{
    const entry *x = *(entry *const *)a, *y = *(entry *const *)b;
    return x->count != y->count ? y->count - x->count : strcmp(x->word, y->word);
}
int main(int argc, char **argv)
{
    bsp_begin(bsp_nprocs());
    int p = bsp_nprocs(), s = bsp_pid(), c, n = 0, index = 0, tag = sizeof(int), packets, i;
    char word[64];
    entry *table[101] = {0}, **list;
    FILE *text = fopen(argv[1], "r");
    if (text == NULL) { perror(argv[1]); return 1; }
    bsp_set_tagsize(&tag);
    bsp_sync();
    while ((c = fgetc(text)) != EOF) {
        if (isalpha(c)) { if (n < 63) word[n++] = (char)tolower(c); continue; }
        word[n] = '\0';
        if (n > 0 && index++ % p == s) bsp_send(hash(word) % p, &n, word, n + 1);
        n = 0;
    }
    fclose(text);
    bsp_sync();
    bsp_qsize(&packets, NULL);
    for (; packets > 0; packets--) {
        int status, length;
        bsp_get_tag(&status, &length);
        bsp_move(word, sizeof word);
        if (status != length + 1) bsp_abort("a tag is wrong\n");
        entry **at = &table[hash(word) % 101];
        while (*at && strcmp((*at)->word, word)) at = &(*at)->next;
        if (!*at) { *at = calloc(1, sizeof **at); (*at)->word = strdup(word); }
        (*at)->count++;
    }
    for (i = 0; i < 101; i++)
        for (entry *e = table[i]; e; e = e->next) bsp_send(0, &e->count, e->word, strlen(e->word) + 1);
    bsp_sync();
    if (s == 0) {
        bsp_qsize(&packets, NULL);
        list = malloc(packets * sizeof *list);
        for (i = 0; i < packets; i++) {
            void *t, *w;
            bsp_hpmove(&t, &w);
            list[i] = malloc(sizeof(entry));
            list[i]->word = w;
            memcpy(&list[i]->count, t, sizeof(int));
        }
        qsort(list, packets, sizeof *list, by_count);
        for (i = 0; i < packets && i < 8; i++) printf("%4d %s\n", list[i]->count, list[i]->word);
    }
    bsp_end();
    return 0;
}
