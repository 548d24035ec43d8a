/* Questions and answers: numbers and words are read with prompts, up to the end. */
#include <bsp.h>
#include <stdio.h>
#include <string.h>

int main(void)
{
    char line[80], word[20];
    double sum = 0, number;
    int all[2] = {0, 0};
    bsp_begin(bsp_nprocs());
    bsp_push_reg(all, sizeof all);
    bsp_sync();
    if (bsp_pid() == 0) {
        int t;
        printf("numbers, one a line; end says that it is over\n");
        while (printf("> "), fflush(stdout), fgets(line, sizeof line, stdin) != NULL) {
            if (strncmp(line, "end", 3) == 0)
                break;
            if (sscanf(line, "%lf", &number) == 1)
                sum += number, all[0]++;
            else if (sscanf(line, "%19s", word) == 1)
                printf("what is %s?\n", word), all[1]++;
        }
        printf("\nsum %g\n", sum);
        for (t = 1; t < bsp_nprocs(); t++)
            bsp_put(t, all, all, 0, sizeof all);
    }
    bsp_sync();
    printf("rank %d knows of %d numbers and %d words\n", bsp_pid(), all[0], all[1]);
    bsp_end();
    return 0;
}
