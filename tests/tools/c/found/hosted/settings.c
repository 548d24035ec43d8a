/* Settings of a file whose name is in the source, with defaults, for a run that is told about by the first process alone. */
#include <bsp.h>
#include <ctype.h>
#include <errno.h>
#include <float.h>
#include <limits.h>
#include <math.h>
#include <stdio.h>
#include <stdlib.h>
#include <string.h>
#include <strings.h>

struct config {
    int steps;
    double dt, omega;
    char title[40];
    int verbose;
};

static char *trim(char *text)
{
    char *end = text + strlen(text);
    while (isspace((unsigned char)*text)) text++;
    while (end > text && isspace((unsigned char)end[-1])) *--end = 0;
    return text;
}

static void load(const char *name, struct config *to)
{
    FILE *file = fopen(name, "rt");
    char line[200], key[100], value[100], section[50] = "";
    int number = 0;
    if (!file) { fprintf(stderr, "cannot open %s: %s\n", name, strerror(errno)); return; }
    while (fgets(line, sizeof line, file)) {
        ++number;
        char *hash = strpbrk(line, "#;");
        if (hash) *hash = '\0';
        if (sscanf(line, " [%49[^]]]", section) == 1 || *trim(line) == '\0') continue;
        if (sscanf(line, " %99[^= \t] = %99[^\n]", key, value) != 2) { printf("line %d: what is '%s'?\n", number, trim(line)); continue; }
        errno = 0;
        char *end = value;
        if (!strcasecmp(section, "run") && !strcasecmp(key, "steps")) {
            long n = strtol(value, &end, 0);
            if (errno == ERANGE || n > 1000000) printf("line %d: too many steps\n", number); else to->steps = (int)n;
        } else if (!strcmp(key, "dt")) to->dt = strtod(value, &end);
        else if (!strcmp(key, "omega")) {
            to->omega = strtod(value, &end);
            if (errno == ERANGE) printf("line %d: %g is out of range\n", number, to->omega);
        } else if (!strcmp(key, "title")) { strncpy(to->title, trim(value), sizeof to->title - 1); end = value + strlen(value); }
        else if (!strcmp(key, "verbose")) to->verbose = strncasecmp(value, "yes", 3) == 0, end += strlen(end);
        else printf("line %d: no key '%s' in [%s]\n", number, key, section);
        if (*trim(end)) printf("line %d: '%s' is left over\n", number, trim(end));
    }
    fclose(file);
}

int main(void)
{
    struct config config = {.steps = 10, .dt = 0.5, .omega = NAN};
    bsp_begin(bsp_nprocs());
    bsp_push_reg(&config, sizeof config);
    bsp_sync();
    if (bsp_pid() == 0) {
        load("settings.ini", &config);
        load("local.ini", &config);
    }
    bsp_sync();
    if (bsp_pid() != 0) bsp_get(0, &config, 0, &config, sizeof config);
    bsp_sync();
    if (bsp_pid() == bsp_nprocs() - 1)
        printf("%d steps of %g, omega %e, \"%s\"%s\n", config.steps, config.dt, config.omega, config.title, config.verbose ? ", in words" : "");
    bsp_end();
    return 0;
}
