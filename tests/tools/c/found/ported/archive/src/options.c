#include "bv/bv.h"
#include <stdlib.h>
#include <string.h>
struct options opts = {.n = 21, .iters = 3, .title = "power"};
void parse(int argc, char **argv)
{
    for (int i = 1; i < argc; i++) {
        char *eq = strchr(argv[i], '=');
        if (!eq)
            continue;
        *eq++ = '\0';
        if (strcmp(argv[i], "n") == 0)
            opts.n = atoi(eq);
        else if (strcmp(argv[i], "iters") == 0)
            opts.iters = atoi(eq);
        else if (strcmp(argv[i], "title") == 0)
            opts.title = eq;
    }
}
