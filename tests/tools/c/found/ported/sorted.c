/* Regular sampling over doubles of a binary file, which the program writes at first; the sorted ones are written to another. */
#include <bsp.h>
#include <fcntl.h>
#include <stdio.h>
#include <stdlib.h>
#include <string.h>
#include <sys/stat.h>
#include <unistd.h>
enum { N = 200 };
static int cmp(const void *a, const void *b) { double x = *(const double *)a, y = *(const double *)b; return x < y ? -1 : x > y; }
int main(void)
{
    bsp_begin(bsp_nprocs());
    int p = bsp_nprocs(), s = bsp_pid(), fd, i, j;
    double *v = malloc(N * sizeof *v), *samples = malloc(p * p * sizeof *samples);
    unsigned seed = 7;
    for (i = 0; i < N; i++) { seed = seed * 1664525u + 1013904223u; v[i] = seed / 65536.0 - 30000; }
    fd = open("unsorted.bin", O_RDWR | O_CREAT | O_TRUNC, 0644);
    if (fd < 0) { perror("unsorted.bin"); return 1; }
    if (write(fd, v, N * sizeof *v) != (ssize_t)(N * sizeof *v)) return 2;
    memset(v, 0, N * sizeof *v);
    int lo = N * s / p, n = N * (s + 1) / p - lo;
    lseek(fd, lo * (off_t)sizeof *v, SEEK_SET);
    if (read(fd, v, n * sizeof *v) != (ssize_t)(n * sizeof *v)) return 3;
    close(fd);
    unlink("unsorted.bin");
    qsort(v, n, sizeof *v, cmp);
    bsp_push_reg(samples, p * p * sizeof *samples);
    bsp_sync();
    for (i = 0; i < p; i++)
        for (j = 0; j < p; j++)
            bsp_put(j, &v[n * i / p], samples, (s * p + i) * sizeof *samples, sizeof *samples);
    bsp_sync();
    qsort(samples, p * p, sizeof *samples, cmp);
    for (i = 0; i < n; i++) {
        for (j = 0; j < p - 1 && v[i] >= samples[(j + 1) * p]; j++) ;
        bsp_send(j, NULL, &v[i], sizeof v[i]);
    }
    bsp_sync();
    int count, bytes;
    bsp_qsize(&count, &bytes);
    double *mine = malloc(bytes + 1);
    for (i = 0; i < count; i++) bsp_move(&mine[i], sizeof mine[i]);
    qsort(mine, count, sizeof *mine, cmp);
    for (int turn = 0; turn < p; turn++) {
        if (turn == s) {
            FILE *f = fopen("sorted.bin", turn ? "ab" : "wb");
            fwrite(mine, sizeof *mine, count, f);
            fclose(f);
        }
        bsp_sync();
    }
    if (s == 0) printf("least %.6f\n", mine[0]);
    bsp_end();
    return 0;
}
