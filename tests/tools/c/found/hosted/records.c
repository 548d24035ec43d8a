/* A file of records of one size, in which rank 0 changes some by their places. */
#include <bsp.h>
#include <stdint.h>
#include <stdio.h>

struct record {
    int32_t key;
    float weight;
    char name[8];
};

int main(void)
{
    struct record it;
    FILE *file;
    int i;
    bsp_begin(bsp_nprocs());
    if (bsp_pid() == 0) {
        file = fopen("records.bin", "wb+");
        for (i = 0; i < 10; i++) {
            it = (struct record){.key = i, .weight = i / 4.0f};
            snprintf(it.name, sizeof it.name, "n%d", i);
            fwrite(&it, sizeof it, 1, file);
        }
        for (i = 0; i < 10; i += 3) {
            fseek(file, i * (long)sizeof it, SEEK_SET);
            if (fread(&it, sizeof it, 1, file) != 1)
                bsp_abort("no record\n");
            it.weight = -it.weight;
            fseek(file, -(long)sizeof it, SEEK_CUR);
            fwrite(&it, sizeof it, 1, file);
        }
        fseek(file, 0, SEEK_END);
        printf("%ld bytes\n", ftell(file));
        fclose(file);
        file = fopen("records.bin", "rb");
        while (fread(&it, sizeof it, 1, file) == 1)
            printf("%d %s %.2f\n", (int)it.key, it.name, it.weight);
        fclose(file);
    }
    bsp_end();
    return 0;
}
