/* Arguments by GNU's argp, which is not here. */
#ifndef BSP_LIBC_ARGP_H
#define BSP_LIBC_ARGP_H

#pragma GCC system_header

#include <errno.h>
#include <stddef.h>

#ifdef __cplusplus
extern "C" {
#endif

struct argp_option {
    const char *name;
    int key;
    const char *arg;
    int flags;
    const char *doc;
    int group;
};
struct argp_state;
typedef int error_t;
typedef error_t (*argp_parser_t)(int key, char *arg, struct argp_state *state);
struct argp {
    const struct argp_option *options;
    argp_parser_t parser;
    const char *args_doc, *doc;
};
__attribute__((error("there is no argp: write getopt_long of <getopt.h>"))) error_t argp_parse(
    const struct argp *it, int count, char **words, unsigned flags, int *index, void *input);

#ifdef __cplusplus
}
#endif

#endif
