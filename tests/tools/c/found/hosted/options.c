/* Options of the command line, long and short. */
#include <bsp.h>
#include <getopt.h>
#include <stdio.h>
#include <stdlib.h>

static const struct option longs[] = {{"size", required_argument, NULL, 's'}, {"verbose", no_argument, NULL, 'v'},
    {"help", no_argument, NULL, 'h'}, {NULL, 0, NULL, 0}};

int main(int argc, char **argv)
{
    int c, size = 10, verbose = 0, i;
    while ((c = getopt_long(argc, argv, "s:vh", longs, NULL)) != -1)
        switch (c) {
        case 's':
            size = atoi(optarg);
            break;
        case 'v':
            verbose++;
            break;
        default:
            fprintf(stderr, "usage: options [-s SIZE] [-v] WORD..\n");
            exit(c == 'h' ? 0 : 2);
        }
    bsp_begin(bsp_nprocs());
    printf("%d: size %d, verbose %d,", bsp_pid(), size, verbose);
    for (i = optind; i < argc; i++)
        printf(" <%s>", argv[i]);
    printf("\n");
    bsp_end();
    return 0;
}
