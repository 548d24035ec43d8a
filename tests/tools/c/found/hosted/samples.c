/* Sort by regular sampling, in the way of the Oxford toolset's examples: bsp_init with a function of its own, and messages with tags. */
#include <stdio.h>
#include <stdlib.h>
#include "bsp.h"

#define N 240
#define MIN(a, b) ((a) < (b) ? (a) : (b))

static int nprocs;

static int cmp(const void *a, const void *b)
{
	return *(const int *)a - *(const int *)b;
}

static void sort_main(void)
{
	int p, me, i, j, n, lo, hi, tagsize = sizeof(int), messages, bytes, status, total = 0;
	int *data, *samples, *all, *sorted;

	bsp_begin(nprocs);
	p = bsp_nprocs();
	me = bsp_pid();
	n = N / p;
	data = malloc(n * sizeof(int));
	samples = calloc(p, sizeof(int));
	all = calloc(p * p, sizeof(int));
	srand(17 + me);
	for (i = 0; i < n; i++)
		data[i] = (i * 7919 + me * 104729) % 1009;
	qsort(data, n, sizeof(int), cmp);
	for (i = 0; i < p; i++)
		samples[i] = data[i * n / p];
	bsp_push_reg(all, p * p * sizeof(int));
	bsp_set_tagsize(&tagsize);
	bsp_sync();
	for (i = 0; i < p; i++)
		bsp_put(i, samples, all, me * p * sizeof(int), p * sizeof(int));
	bsp_sync();
	qsort(all, p * p, sizeof(int), cmp);
	for (lo = i = 0; i < p; i++, lo = hi) {
		hi = lo;
		while (hi < n && (i == p - 1 || data[hi] < all[(i + 1) * p]))
			hi++;
		if (hi > lo)
			bsp_send(i, &me, data + lo, (hi - lo) * sizeof(int));
	}
	bsp_sync();
	bsp_qsize(&messages, &bytes);
	sorted = malloc(bytes + sizeof(int));
	for (j = 0; j < messages; j++) {
		bsp_get_tag(&status, &i);
		bsp_move(sorted + total, status);
		total += status / sizeof(int);
	}
	qsort(sorted, total, sizeof(int), cmp);
	for (i = 1; i < total; i++)
		if (sorted[i - 1] > sorted[i])
			bsp_abort("{%d} not sorted at %d", me, i);
	fprintf(stdout, "{%d} %3d keys: %4d ... %4d\n", me, total, total ? sorted[0] : -1, total ? sorted[total - 1] : -1);
	bsp_pop_reg(all);
	free(data); free(samples); free(all); free(sorted);
	bsp_end();
}

void main(int argc, char **argv)
{
	bsp_init(sort_main, argc, argv);
	nprocs = MIN(4, bsp_nprocs());
	sort_main();
	exit(EXIT_SUCCESS);
}
