/* Structures that are sorted and looked up, with texts. */
#include <bsp.h>
#include <ctype.h>
#include <stdio.h>
#include <stdlib.h>
#include <string.h>

typedef struct {
    char name[16];
    int age;
} person;

static int by_name(const void *a, const void *b) { return strcmp(((const person *)a)->name, ((const person *)b)->name); }
static int by_age(const void *a, const void *b) { return ((const person *)b)->age - ((const person *)a)->age; }

int main(void)
{
    person all[] = {{"mary", 31}, {"ada", 36}, {"zoe", 7}, {"bob", 52}, {"eve", 41}}, key = {"eve", 0}, *found;
    int n = sizeof all / sizeof *all, i;
    bsp_begin(bsp_nprocs());
    for (i = 0; i < n; i++)
        all[i].name[0] = (char)toupper(all[i].name[0]);
    key.name[0] = 'E';
    qsort(all, n, sizeof *all, bsp_pid() % 2 ? by_age : by_name);
    if (bsp_pid() % 2 == 0) {
        found = bsearch(&key, all, n, sizeof *all, by_name);
        printf("%s is %d\n", found->name, found->age);
    }
    for (i = 0; i < n; i++)
        printf("%-6s%3d%s", all[i].name, all[i].age, i + 1 < n ? "; " : "\n");
    bsp_end();
    return 0;
}
