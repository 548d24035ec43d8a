/* Words are counted in tables that are spread by a hash: each word goes to its rank, in a message with its count as the tag. */
#include <bsp.h>
#include <ctype.h>
#include <stdio.h>
#include <stdlib.h>
#include <string.h>

#define BUCKETS 32

static const char *const lines[] = {
    "The quick brown fox jumps over the lazy dog.",
    "The dog sleeps; the fox, however, does not.",
    "A fox is a fox, and a dog is a dog.",
    "Quick foxes jump, and the dog sleeps.",
};

typedef struct entry { char *word; int count; struct entry *next; } entry;
static entry *table[BUCKETS];

static unsigned hash(const char *word)
{
    unsigned h = 2166136261u;
    while (*word)
        h = (h ^ (unsigned char)*word++) * 16777619u;
    return h;
}

static void add(const char *word, int count)
{
    entry **at = &table[hash(word) / 7 % BUCKETS];
    while (*at != NULL && strcmp((*at)->word, word) != 0)
        at = &(*at)->next;
    if (*at == NULL) {
        *at = calloc(1, sizeof **at);
        (*at)->word = strdup(word);
    }
    (*at)->count += count;
}

static int by_count(const void *a, const void *b)
{
    const entry *one = *(entry *const *)a, *other = *(entry *const *)b;
    return one->count != other->count ? other->count - one->count : strcmp(one->word, other->word);
}

int main(void)
{
    int tag = sizeof(int), count, bytes, total = 0;
    entry *all[200];

    bsp_begin(bsp_nprocs());
    int p = bsp_nprocs(), s = bsp_pid();
    char text[256];
    bsp_set_tagsize(&tag);
    bsp_sync();
    for (int line = 0; line < (int)(sizeof lines / sizeof *lines); line++)
        if (line % p == s) {
            strcpy(text, lines[line]);
            for (char *word = strtok(text, " ,.;\n"); word; word = strtok(NULL, " ,.;\n")) {
                for (char *c = word; *c; c++)
                    *c = tolower((unsigned char)*c);
                add(word, 1);
            }
        }
    for (int b = 0; b < BUCKETS; b++)
        for (entry *e = table[b]; e; e = e->next)
            bsp_send(hash(e->word) % p, &e->count, e->word, strlen(e->word) + 1);
    memset(table, 0, sizeof table);
    bsp_sync();
    bsp_qsize(&count, &bytes);
    for (int size; count-- > 0;) {
        int number;
        bsp_get_tag(&size, &number);
        bsp_move(text, size);
        add(text, number);
    }
    for (int b = 0; b < BUCKETS; b++)
        for (entry *e = table[b]; e; e = e->next)
            all[total++] = e;
    qsort(all, total, sizeof *all, by_count);
    printf("rank %d has %d words in %d bytes:", s, total, bytes);
    for (int i = 0; i < total && i < 3; i++)
        printf(" %s %d", all[i]->word, all[i]->count);
    printf("\n");
    bsp_end();
    return 0;
}
