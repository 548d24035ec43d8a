/* Dijkstra's algorithm with a heap of pointers; sources are shared out, and the results are gathered as messages. */
#include <bsp.h>
#include <limits.h>
#include <stdbool.h>
#include <stdio.h>
#include <stdlib.h>

struct road { int to, length; struct road *next; };
struct town { char name[12]; struct road *roads; int distance, place; struct town *from; };

static struct town towns[] = {{"Aachen"}, {"Bonn"}, {"Celle"}, {"Dessau"}, {"Essen"}, {"Fulda"}, {"Gera"}, {"Halle"}};
enum { N = sizeof towns / sizeof towns[0] };
static struct town *heap[N + 1];
static int size;

static void place(struct town *it, int at) { heap[at] = it; it->place = at; }
static void up(struct town *it)
{
    int at = it->place;
    for (; at > 1 && heap[at / 2]->distance > it->distance; at /= 2) place(heap[at / 2], at);
    place(it, at);
}
static struct town *pop(void)
{
    struct town *top = heap[1], *last = heap[size--];
    int at = 1, child;
    for (; (child = 2 * at) <= size; at = child) {
        if (child < size && heap[child + 1]->distance < heap[child]->distance) child++;
        if (heap[child]->distance >= last->distance) break;
        place(heap[child], at);
    }
    if (size) place(last, at);
    return top;
}

static void road(int a, int b, int length)
{
    for (int i = 0; i < 2; i++) {
        struct road *it = malloc(sizeof *it);
        *it = (struct road){i ? a : b, length, towns[i ? b : a].roads};
        towns[i ? b : a].roads = it;
    }
}

static void search(int from)
{
    size = 0;
    for (int i = 0; i < N; i++) {
        towns[i].distance = i == from ? 0 : INT_MAX;
        towns[i].from = NULL;
        place(&towns[i], ++size);
        up(&towns[i]);
    }
    while (size > 0) {
        struct town *t = pop();
        if (t->distance == INT_MAX) break;
        for (struct road *r = t->roads; r; r = r->next)
            if (t->distance + r->length < towns[r->to].distance) {
                towns[r->to].distance = t->distance + r->length;
                towns[r->to].from = t;
                up(&towns[r->to]);
            }
    }
}

int main(void)
{
    static const int given[][3] = {{0, 1, 91}, {1, 4, 104}, {4, 2, 271}, {2, 7, 196}, {7, 3, 61}, {3, 6, 118}, {6, 5, 190}, {5, 1, 220}, {7, 6, 80}};
    struct { int from, to, distance; } answer;
    bsp_begin(bsp_nprocs());
    for (size_t i = 0; i < sizeof given / sizeof *given; i++) road(given[i][0], given[i][1], given[i][2]);
    for (int from = bsp_pid(); from < N; from += bsp_nprocs()) {
        search(from);
        for (int to = from + 1; to < N; to++) {
            answer.from = from, answer.to = to, answer.distance = towns[to].distance;
            bsp_send(0, NULL, &answer, sizeof answer);
        }
        if (from == 0)
            for (struct town *t = &towns[N - 1]; t; t = t->from) printf("%s%s", t->name, t->from ? " < " : "\n");
    }
    bsp_sync();
    int count, bytes, matrix[N][N] = {{0}};
    bsp_qsize(&count, &bytes);
    while (count-- > 0) {
        bsp_move(&answer, sizeof answer);
        matrix[answer.from][answer.to] = answer.distance;
    }
    if (bsp_pid() == 0)
        for (int i = 0; i < N; i++) {
            printf("%-8.5s", towns[i].name);
            for (int j = 0; j < N; j++) j > i ? printf("%5d", matrix[i][j]) : printf("%5s", j == i ? "-" : "");
            printf("\n");
        }
    bsp_end();
    return 0;
}
