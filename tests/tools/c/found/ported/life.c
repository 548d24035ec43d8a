/* The game of life on a torus; the first state is a file of text, each state is a file of its own. */
#include <bsp.h>
#include <stdio.h>
#include <stdlib.h>
#include <string.h>
#define W 20
#define H 16
#define CELL(b, r, c) b[((r) + H) % H][((c) + W) % W]
static char board[2][H][W];
int main(int argc, char **argv)
{
    int p, s, g, r, c, generations = argc > 2 ? atoi(argv[2]) : 4;
    bsp_begin(bsp_nprocs());
    p = bsp_nprocs(); s = bsp_pid();
    FILE *in = fopen(argv[1], "r");
    if (in == NULL) { perror("life"); exit(2); }
    char line[80];
    for (r = 0; r < H && fgets(line, sizeof line, in); r++)
        for (c = 0; c < W && line[c] != '\n'; c++)
            board[0][r][c] = line[c] == '#';
    fclose(in);
    bsp_push_reg(board, sizeof board);
    bsp_sync();
    for (g = 1; g <= generations; g++) {
        char (*from)[W] = board[(g + 1) % 2];
        for (r = H * s / p; r < H * (s + 1) / p; r++) {
            char row[W];
            for (c = 0; c < W; c++) {
                int n = -CELL(from, r, c);
                for (int i = -1; i <= 1; i++)
                    for (int j = -1; j <= 1; j++)
                        n += CELL(from, r + i, c + j);
                row[c] = n == 3 || (n == 2 && from[r][c]);
            }
            for (int q = 0; q < p; q++)
                bsp_put(q, row, board, (int)((g % 2) * sizeof board[0] + r * W), W);
        }
        bsp_sync();
        if (s == 0) {
            char name[32];
            snprintf(name, sizeof name, "gen%02d.txt", g);
            FILE *out = fopen(name, "w");
            if (!out) { perror(name); return 3; }
            for (r = 0; r < H; r++, fputc('\n', out))
                for (c = 0; c < W; c++)
                    fputc(board[g % 2][r][c] ? '#' : '.', out);
            if (fclose(out) == EOF) perror(name);
        }
    }
    if (s == 0) {
        int alive = 0;
        for (r = 0; r < H; r++) for (c = 0; c < W; c++) alive += board[generations % 2][r][c];
        printf("%d alive after %d generations\n", alive, generations);
    }
    bsp_end();
    return 0;
}
