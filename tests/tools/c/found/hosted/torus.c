/* The game of life on a torus, in rows of bits, with a glider that comes round. */
#include <stdio.h>
#include <stdint.h>
#include <inttypes.h>
#include <stdbool.h>
#include <string.h>
#include <bsp.h>

#define ROWS 16
#define BIT(row, c) ((row) >> ((c) & 31) & 1u)

static const char *const glider[] = { ".#.", "..#", "###" };

static uint32_t next_row(uint32_t up, uint32_t me, uint32_t down)
{
  uint32_t out = 0;
  for (int c = 0; c < 32; ++c)
    {
      int n = 0;
      for (int d = 31; d <= 33; ++d)
        n += BIT (up, c + d) + BIT (down, c + d) + (d == 32 ? 0 : BIT (me, c + d));
      bool lives = n == 3 || (n == 2 && BIT (me, c));
      out |= (uint32_t) lives << c;
    }
  return out;
}

int
main (void)
{
  bsp_begin (bsp_nprocs ());
  int p = bsp_nprocs (), s = bsp_pid (), mine = ROWS / p;
  uint32_t rows[ROWS + 2] = { 0 }, fresh[ROWS + 2], world[ROWS];
  bsp_push_reg (rows, sizeof rows);
  bsp_push_reg (world, sizeof world);
  bsp_sync ();
  if (s == 0)
    for (size_t i = 0; i < sizeof glider / sizeof *glider; ++i)
      for (const char *at = glider[i]; *at; ++at)
        if (*at == '#')
          rows[i + 1] |= UINT32_C (1) << (at - glider[i]);
  for (int step = 0; step < 44; ++step)
    {
      bsp_put ((s + p - 1) % p, &rows[1], rows, (mine + 1) * sizeof *rows, sizeof *rows);
      bsp_put ((s + 1) % p, &rows[mine], rows, 0, sizeof *rows);
      bsp_sync ();
      for (int i = 1; i <= mine; ++i)
        fresh[i] = next_row (rows[i - 1], rows[i], rows[i + 1]);
      memcpy (rows + 1, fresh + 1, mine * sizeof *rows);
    }
  bsp_put (0, rows + 1, world, s * mine * sizeof *rows, mine * sizeof *rows);
  bsp_sync ();
  if (s == 0)
    for (int i = 0; i < ROWS; ++i)
      {
        printf ("%08" PRIX32 " ", world[i]);
        for (int c = 0; c < 32; ++c)
          putchar (BIT (world[i], c) ? '#' : '.');
        puts ("");
      }
  bsp_end ();
}
