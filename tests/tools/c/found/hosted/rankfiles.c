/* Each rank writes a file of its own, into a folder, and reads it again. */
#include <bsp.h>
#include <stdio.h>
#include <sys/stat.h>

int main(void)
{
    char name[64];
    int i, number, sum = 0;
    FILE *file;
    bsp_begin(bsp_nprocs());
    mkdir("out", 0755);
    snprintf(name, sizeof name, "out/rank%d.dat", bsp_pid());
    file = fopen(name, "w");
    for (i = 0; i <= bsp_pid(); i++)
        fprintf(file, "%d\n", i * i);
    fclose(file);
    file = fopen(name, "r");
    while (fscanf(file, "%d", &number) == 1)
        sum += number;
    fclose(file);
    printf("%s: %d\n", name, sum);
    bsp_end();
    return 0;
}
