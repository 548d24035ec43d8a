/* Trees and tables of search.h, with what lsearch and bsearch find. */
#define _GNU_SOURCE
#include <bsp.h>
#include <search.h>
#include <stdio.h>
#include <stdlib.h>
#include <string.h>

static int by_text(const void *a, const void *b) { return strcmp(a, b); }
static int by_key(const void *key, const void *item) { return *(const int *)key - *(const int *)item; }

static int nodes, roots;
static void walk(const void *node, VISIT visit, int depth)
{
    if (visit == postorder || visit == leaf) {
        printf("%s, ", *(char *const *)node);
        nodes++;
        roots += depth == 0;
    }
}

int main(void)
{
    static char *words[] = {"kiwi", "apple", "plum", "cherry", "fig", "apple", "quince", "grape", "fig"};
    const size_t n = sizeof words / sizeof words[0];
    bsp_begin(bsp_nprocs());
    int s = bsp_pid(), numbers[20];
    size_t count = 0;
    void *root = NULL;
    for (size_t i = s % 3; i < n; i++) {
        char **found = tsearch(words[i], &root, by_text);
        if (*found != words[i])
            printf("(%s again) ", *found);
    }
    twalk(root, walk);
    printf("%d nodes, %d root, %s\n", nodes, roots, tfind("plum", &root, by_text) ? "with plum" : "no plum");
    tdelete("plum", &root, by_text);
    printf("%s\n", tfind("plum", &root, by_text) ? "with plum" : "no plum");
    for (int i = 0; i < 12; i++) {
        int it = (i * i + s) % 11;
        lsearch(&it, numbers, &count, sizeof it, by_key);
    }
    qsort(numbers, count, sizeof(int), by_key);
    for (size_t i = 0; i < count; i++)
        printf("%d%c", numbers[i], i + 1 < count ? ' ' : '\n');
    int key = 5;
    int *at = bsearch(&key, numbers, count, sizeof(int), by_key);
    printf("%s\n", at ? "5 is there" : "5 is not there");
    if (hcreate(30) == 0)
        bsp_abort("hcreate");
    for (size_t i = 0; i < n; i++)
        hsearch((ENTRY){words[i], (void *)(size_t)i}, ENTER);
    ENTRY *entry = hsearch((ENTRY){"quince", NULL}, FIND);
    printf("quince is number %d, %s\n", entry ? (int)(size_t)entry->data : -1, hsearch((ENTRY){"lime", NULL}, FIND) ? "lime too" : "no lime");
    hdestroy();
    bsp_end();
    return 0;
}
