/* Values of all kinds: numbers, a text, structures, a matrix, a block of the heap that is registered and one that is not; puts, gets and
   messages with tags. Rank s has s * s in square while the requests of superstep 1 are on their way. */
#include <bsp.h>
#include <stdio.h>
#include <stdlib.h>
#include <string.h>

enum mood { CALM, BUSY };
struct cell {
    int number;
    double weight;
    enum mood mood;
};

int table[6];
double grid[3][4];
char word[12];
struct cell cells[2];
static int square;

int main(void)
{
    int p, s, tag_size = sizeof(int);
    double *x, *own;

    bsp_begin(bsp_nprocs());
    p = bsp_nprocs();
    s = bsp_pid();
    x = malloc(5 * sizeof(double));
    own = malloc(3 * sizeof(double));
    for (int i = 0; i < 5; i++)
        x[i] = s + i / 4.0;
    for (int i = 0; i < 3; i++)
        own[i] = -1.5 * i;
    bsp_push_reg(x, 5 * sizeof(double));
    bsp_push_reg(table, sizeof table);
    bsp_set_tagsize(&tag_size);
    bsp_sync();

    square = s * s;
    strcpy(word, s % 2 ? "odd" : "even");
    cells[s % 2] = (struct cell){s, s + 0.5, s % 2 ? BUSY : CALM};
    for (int i = 0; i < 12; i++)
        grid[i / 4][i % 4] = 10 * s + i;
    bsp_put((s + 1) % p, &square, table, (s % 6) * (int)sizeof(int), sizeof square);
    bsp_get((s + p - 1) % p, x, sizeof(double), own, sizeof(double));
    bsp_send((s + 1) % p, &s, word, (int)strlen(word) + 1);
    bsp_sync();

    bsp_get_tag(&p, &s);
    printf("%s %d %d %g %g %g %d\n", word, table[0], square, own[0], cells[s % 2].weight, grid[1][2], p);
    bsp_end();
    return 0;
}
