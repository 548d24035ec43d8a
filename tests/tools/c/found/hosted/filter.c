/* Lines of a file that fit a pattern of POSIX, as grep finds them; each process looks at every fourth line. */
#include <bsp.h>
#include <fnmatch.h>
#include <regex.h>
#include <stdio.h>
#include <stdlib.h>
#include <string.h>
#include <libgen.h>

int main(int argc, char **argv)
{
    char line[256], said[100], path[] = "text/prose.txt";
    regex_t pattern, word;
    regmatch_t groups[3];
    int status, number = 0, matches = 0;
    FILE *in;

    bsp_begin(bsp_nprocs());
    if ((status = regcomp(&pattern, "([[:alpha:]]+) (of|in|was) ", REG_EXTENDED | REG_ICASE)) != 0) {
        regerror(status, &pattern, said, sizeof said);
        bsp_abort("%s\n", said);
    }
    status = regcomp(&word, "a[b", 0);
    printf("%d: a[b is %s\n", bsp_pid(), status ? "refused" : "taken");
    if ((in = fopen(path, "r")) == NULL)
        bsp_abort("cannot open %s\n", path);
    while (fgets(line, sizeof line, in)) {
        if (number++ % bsp_nprocs() != bsp_pid())
            continue;
        char *at = line;
        while (regexec(&pattern, at, 3, groups, at == line ? 0 : REG_NOTBOL) == 0) {
            matches++;
            printf("%d:%d: %.*s\n", number, (int)(at - line + groups[0].rm_so), (int)(groups[1].rm_eo - groups[1].rm_so), at + groups[1].rm_so);
            at += groups[0].rm_eo;
        }
    }
    fclose(in);
    regfree(&pattern);
    printf("%d matches in %s, which is %sa text of %s\n", matches, basename(path), fnmatch("*.t?t", path, 0) ? "not " : "", dirname(strdup("text/prose.txt")));
    bsp_end();
    return 0;
}
