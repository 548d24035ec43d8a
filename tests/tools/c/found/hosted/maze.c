/* The shortest way through a maze that is typed: levels of a search, with walls in a two-dimensional array of characters. */
#include <stdio.h>
#include <stdlib.h>
#include <string.h>
#include <bsp.h>
#define MAXW 40
#define MAXH 20

char map[MAXH][MAXW + 2];
int dist[MAXH][MAXW], other[MAXH][MAXW];
int width, height;

int main()
{
  int s, p, x, y, k, level, changed, any[16], dx[] = {1, -1, 0, 0}, dy[] = {0, 0, 1, -1};
  int sx = 0, sy = 0, ex = 0, ey = 0;
  bsp_begin(bsp_nprocs());
  s = bsp_pid(); p = bsp_nprocs();
  bsp_push_reg(map, sizeof(map)); bsp_push_reg(other, sizeof(other)); bsp_push_reg(any, sizeof(any));
  bsp_push_reg(&width, sizeof(int)); bsp_push_reg(&height, sizeof(int));
  bsp_sync();
  if (s == 0) {
    while (height < MAXH && fgets(map[height], sizeof(map[height]), stdin)) {
      map[height][strcspn(map[height], "\r\n")] = '\0';
      if ((int)strlen(map[height]) > width) width = strlen(map[height]);
      height++;
    }
    for (k = 0; k < p; k++) {
      bsp_put(k, map, map, 0, sizeof(map));
      bsp_put(k, &width, &width, 0, sizeof(int));
      bsp_put(k, &height, &height, 0, sizeof(int));
    }
  }
  bsp_sync();
  memset(dist, -1, sizeof dist);
  for (y = 0; y < height; y++)
    for (x = 0; x < width; x++)
      if (map[y][x] == 'S') sx = x, sy = y; else if (map[y][x] == 'E') ex = x, ey = y;
  dist[sy][sx] = 0;
  for (level = 0, changed = 1; changed && dist[ey][ex] < 0; level++) {
    memset(other, 0, sizeof other);
    bsp_sync();
    changed = 0;
    for (y = s; y < height; y += p)
      for (x = 0; x < width; x++)
        if (dist[y][x] == level)
          for (k = 0; k < 4; k++) {
            int nx = x + dx[k], ny = y + dy[k], one = 1, t;
            if (nx < 0 || ny < 0 || nx >= width || ny >= height || map[ny][nx] == '#' || dist[ny][nx] >= 0) continue;
            changed = 1;
            for (t = 0; t < p; t++) bsp_put(t, &one, other, (ny * MAXW + nx) * sizeof(int), sizeof(int));
          }
    for (k = 0; k < p; k++) bsp_put(k, &changed, any, s * sizeof(int), sizeof(int));
    bsp_sync();
    for (changed = k = 0; k < p; k++) changed |= any[k];
    for (y = 0; y < height; y++) for (x = 0; x < width; x++) if (other[y][x] && dist[y][x] < 0) dist[y][x] = level + 1;
  }
  if (s == 0) {
    if (dist[ey][ex] < 0) puts("There is no way.");
    else {
      printf("%d steps:\n", dist[ey][ex]);
      for (x = ex, y = ey; dist[y][x] > 1; map[y][x] = '*')
        for (k = 0; k < 4; k++)
          if (y + dy[k] >= 0 && x + dx[k] >= 0 && dist[y + dy[k]][x + dx[k]] == dist[y][x] - 1 && map[y + dy[k]][x + dx[k]] != '#') {
            x += dx[k]; y += dy[k];
            break;
          }
      for (y = 0; y < height; y++) puts(map[y]);
    }
  }
  bsp_end();
  return 0;
}
