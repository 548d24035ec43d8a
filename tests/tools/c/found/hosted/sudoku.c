/* A sudoku by bits and backtracking: each process tries other digits in the first free cell, and who finds it tells all. */
#include <stdio.h>
#include <string.h>
#include <bsp.h>

static char grid[82] = "53..7....6..195....98....6.8...6...34..8.3..17...2...6.6....28....419..5....8..79", solution[82];
static int rows[9], cols[9], boxes[9];
static long nodes;

static void put(int at, int bit) { rows[at / 9] ^= bit; cols[at % 9] ^= bit; boxes[at / 27 * 3 + at % 9 / 3] ^= bit; }

static int solve(int at)
{
    nodes++;
    while (at < 81 && grid[at] != '.') at++;
    if (at == 81) return 1;
    int used = rows[at / 9] | cols[at % 9] | boxes[at / 27 * 3 + at % 9 / 3];
    for (int free = ~used & 0x1ff, bit; (bit = free & -free) != 0; free ^= bit) {
        grid[at] = '0' + __builtin_ffs(bit);
        put(at, bit);
        if (solve(at + 1)) return 1;
        put(at, bit);
    }
    grid[at] = '.';
    return 0;
}

int main()
{
    int s, i, first, found = 0;
    bsp_begin(bsp_nprocs());
    s = bsp_pid();
    bsp_push_reg(solution, sizeof solution);
    bsp_sync();
    for (i = 0; i < 81; i++)
        if (grid[i] != '.') put(i, 1 << (grid[i] - '1'));
    first = strchr(grid, '.') - grid;
    for (i = s; i < 9 && !found; i += bsp_nprocs())
        if (!((rows[first / 9] | cols[first % 9] | boxes[first / 27 * 3 + first % 9 / 3]) >> i & 1)) {
            grid[first] = '1' + i;
            put(first, 1 << i);
            if ((found = solve(0)) == 0) put(first, 1 << i), grid[first] = '.';
        }
    if (found)
        for (i = 0; i < bsp_nprocs(); i++) bsp_put(i, grid, solution, 0, sizeof grid);
    bsp_sync();
    if (s == bsp_nprocs() - 1)
        for (i = 0; i < 9; i++) printf("%.3s|%.3s|%.3s\n%s", solution + 9 * i, solution + 9 * i + 3, solution + 9 * i + 6, i % 3 == 2 && i < 8 ? "---+---+---\n" : "");
    printf("process %d looked at %ld nodes%c\n", s, nodes, found ? '!' : '.');
    bsp_end();
    return 0;
}
