/* A table with commas is read by name, its columns are added up over the ranks, and a table is written. */
#include <bsp.h>
#include <stdio.h>
#include <stdlib.h>
#include <string.h>

int main(void)
{
    char line[200], names[8][20];
    double sums[8] = {0}, all[8 * 16];
    int columns = 0, rows = 0, i, t;
    FILE *in, *out;
    bsp_begin(bsp_nprocs());
    in = fopen("./table.csv", "r");
    if (!in)
        bsp_abort("no table\n");
    if (fgets(line, sizeof line, in))
        for (char *word = strtok(line, ",\r\n"); word; word = strtok(NULL, ",\r\n"))
            strncpy(names[columns++], word, 19)[19] = 0;
    while (fgets(line, sizeof line, in)) {
        if (rows++ % bsp_nprocs() != bsp_pid())
            continue;
        char *rest = line;
        for (i = 0; i < columns; i++)
            sums[i] += strtod(rest, &rest), rest += *rest == ',';
    }
    fclose(in);
    bsp_push_reg(all, sizeof all);
    bsp_sync();
    bsp_put(0, sums, all, bsp_pid() * 8 * (int)sizeof(double), sizeof sums);
    bsp_sync();
    if (bsp_pid() == 0) {
        out = fopen("sums.csv", "w");
        for (i = 0; i < columns; i++) {
            double sum = 0;
            for (t = 0; t < bsp_nprocs(); t++)
                sum += all[8 * t + i];
            fprintf(out, "%s,%.3f\n", names[i], sum);
        }
        fclose(out);
        printf("%d rows, %d columns\n", rows, columns);
    }
    bsp_end();
    return 0;
}
