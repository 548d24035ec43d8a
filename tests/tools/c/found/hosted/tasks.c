/* Tasks with costs are given to the rank that has least, by all in the same way. */
#include <bsp.h>
#include <stdbool.h>
#include <stdio.h>
#include <stdlib.h>
#include <time.h>

typedef struct task {
    int cost;
    struct task *next;
} task;

static task *insert(task *list, int cost)
{
    task **at = &list, *new = malloc(sizeof *new);
    while (*at != NULL && (*at)->cost >= cost)
        at = &(*at)->next;
    *new = (task){.cost = cost, .next = *at};
    *at = new;
    return list;
}

int main(void)
{
    const time_t begun = time(NULL);
    int load[16] = {0}, i, least, mine = 0;
    task *list = NULL, *it;
    bsp_begin(bsp_nprocs());
    for (i = 0; i < 15; i++)
        list = insert(list, 1 + i * 7 % 19);
    for (it = list; it != NULL; it = it->next) {
        for (least = 0, i = 1; i < bsp_nprocs(); i++)
            if (load[i] < load[least])
                least = i;
        load[least] += it->cost;
        mine += least == bsp_pid();
    }
    const bool is_late = difftime(time(NULL), begun) > 3600;
    printf("rank %d: %d tasks of cost %d%s\n", bsp_pid(), mine, load[bsp_pid()], is_late ? ", late" : "");
    bsp_end();
    return EXIT_SUCCESS;
}
