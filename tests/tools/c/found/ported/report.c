/* A table of powers, with a time stamp, to standard output by freopen; settings are read from a file of names and values. */
#include <bsp.h>
#include <ctype.h>
#include <limits.h>
#include <stdarg.h>
#include <stdio.h>
#include <stdlib.h>
#include <string.h>
#include <strings.h>
#include <time.h>
static int base = 2, count = 4;
static char title[40] = "no title";
static void die(const char *format, ...) { va_list a; va_start(a, format); vfprintf(stderr, format, a); va_end(a); exit(EXIT_FAILURE); }
static void read_settings(const char *name)
{
    char line[100], key[40], value[60];
    FILE *f = fopen(name, "r");
    int number = 0;
    if (!f) die("%s cannot be opened\n", name);
    while (fgets(line, sizeof line, f)) {
        char *hash = strchr(line, '#');
        number++;
        if (hash) *hash = '\0';
        if (strspn(line, " \t\r\n") == strlen(line)) continue;
        if (sscanf(line, " %39[a-zA-Z_] = %59[^\n]", key, value) != 2) die("%s:%d: not understood\n", name, number);
        if (!strcasecmp(key, "base")) base = (int)strtol(value, NULL, 10);
        else if (!strcasecmp(key, "count")) count = (int)strtoul(value, NULL, 0);
        else if (!strcasecmp(key, "title")) snprintf(title, sizeof title, "%s", value);
    }
    fclose(f);
}
int main(int argc, char **argv)
{
    time_t now = 0;
    char stamp[40];
    bsp_begin(bsp_nprocs());
    read_settings(argv[1]);
    long long powers[16] = {0};
    bsp_push_reg(powers, sizeof powers);
    bsp_sync();
    for (int i = bsp_pid(); i < count; i += bsp_nprocs()) {
        long long v = 1;
        for (int k = 0; k < i * 3; k++) v *= base;
        bsp_put(0, &v, powers, i * sizeof v, sizeof v);
    }
    bsp_sync();
    if (bsp_pid() == 0) {
        strftime(stamp, sizeof stamp, "%Y-%m-%d %H:%M:%S", gmtime(&now));
        if (argc > 2 && !freopen(argv[2], "w", stdout)) die("%s cannot be written\n", argv[2]);
        printf("%s (%s)\n%-6s|%20s|%24s\n", title, stamp, "power", "value", "octal");
        for (int i = 0; i < count; i++)
            printf("%-6d|%20lld|%#24llo\n", i * 3, powers[i], (unsigned long long)powers[i]);
        printf("%c%c%c %5.1f%% %+d %x %X %hhd\n", 'e', 'n', 'd', 99.5, 7, 255u, 255u, (signed char)-3);
    }
    bsp_end();
    return 0;
}
