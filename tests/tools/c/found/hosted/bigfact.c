/* Factorials with as many digits as there are: partial products in base 10000, which are multiplied in a tree. */
#include <stdio.h>
#include <stdlib.h>
#include <string.h>
#include "bsp.h"

#define BASE 10000
#define MAXD 128

typedef struct {
  int n;
  int d[MAXD];
} big;

static void big_mul(big *r, const big *a, const big *b)
{
  int i, j;
  long long carry;
  memset(r, 0, sizeof *r);
  for (i = 0; i < a->n; i++) {
    carry = 0;
    for (j = 0; j < b->n || carry; j++) {
      carry += r->d[i + j] + (j < b->n ? (long long) a->d[i] * b->d[j] : 0);
      r->d[i + j] = (int) (carry % BASE);
      carry /= BASE;
      if (i + j + 1 > r->n) r->n = i + j + 1;
    }
  }
}

static char *big_str(const big *a)
{
  char *s = malloc(4 * a->n + 1), *at = s;
  int i = a->n - 1;
  at += sprintf(at, "%d", a->d[i]);
  while (--i >= 0) at += sprintf(at, "%04d", a->d[i]);
  return s;
}

int main(int argc, char **argv)
{
  int N = argc > 1 ? atoi(argv[1]) : 60, p, s, i, d;
  big acc = { 1, { 1 } }, one = { 1 }, other, r;
  bsp_begin(bsp_nprocs());
  p = bsp_nprocs();
  s = bsp_pid();
  bsp_push_reg(&other, sizeof other);
  bsp_sync();
  for (i = s + 1; i <= N; i += p) {
    one.d[0] = i;
    big_mul(&r, &acc, &one);
    acc = r;
  }
  for (d = 1; d < p; d *= 2) {
    if (s % (2 * d) == d) bsp_put(s - d, &acc, &other, 0, sizeof acc);
    bsp_sync();
    if (s % (2 * d) == 0 && s + d < p) {
      big_mul(&r, &acc, &other);
      acc = r;
    }
  }
  if (s == 0) {
    char *text = big_str(&acc);
    int digits = strlen(text), zeros = 0;
    while (text[digits - 1 - zeros] == '0') zeros++;
    printf("%d! = %s\n(%d digits, %d zeros at the end)\n", N, text, digits, zeros);
    free(text);
  }
  bsp_end();
  return 0;
}
