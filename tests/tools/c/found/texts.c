/* Words of texts, options of a command line, times as texts, and conversions of printf and scanf that are rarer. */
#include <getopt.h>
#include <stdio.h>
#include <stdlib.h>
#include <string.h>
#include <time.h>
#include <wchar.h>

#include "bsp.h"

static void words(const char *given, const char *ends)
{
    char text[40], *rest = strcpy(text, given), *word;
    while ((word = strsep(&rest, ends)) != NULL)
        printf("[%s]", word);
    printf("\n");
}

static void options(const char *letters)
{
    static const struct option names[] = {{"size", required_argument, NULL, 's'}, {"silent", no_argument, NULL, 'q'}, {0}};
    char *given[] = {"options", "-a", "first", "-", "-bc", "--si", "-x", "--size=9", "--sil", "-b", NULL};
    int letter, index = -1;
    optind = 0;
    opterr = 0;
    while ((letter = getopt_long(10, given, letters, names, &index)) != -1) {
        printf("%c %s %d %d", letter, optarg == NULL ? "-" : optarg, optind, index);
        if (letter == '?' || letter == ':')
            printf(" of %d", optopt);
        printf(", ");
    }
    for (int i = optind; i < 10; i++)
        printf(" %s", given[i]);
    printf(" left\n");
}

static void dates(void)
{
    char text[32] = "nothing", seconds[2][24];
    struct tm when = {.tm_year = 69, .tm_mon = 11, .tm_mday = 31, .tm_hour = 23, .tm_min = 59, .tm_sec = 58, .tm_yday = 364};
    int sizes[3] = {(int)strftime(text, 0, "%Y-%m-%d", &when), text[0], (int)strftime(text, 11, "%Y-%m-%d", &when)};
    printf("%d %c %d %s\n", sizes[0], sizes[1], sizes[2], text);
    strftime(seconds[0], sizeof seconds[0], "%s%%s %S", &when);
    when.tm_year = 4;
    strftime(seconds[1], sizeof seconds[1], "%s", &when);
    printf("%s, %s\n", seconds[0], seconds[1]);
}

static void conversions(void)
{
    char *word = NULL, *letters = NULL, text[8];
    wchar_t wide[8];
    unsigned number = 0;
    int count;
    printf("[%3$*1$d] [%2$-*1$s] [%4$.*5$f] [%6$lld] [%7$Lg] %%\n", 6, "ab", 42, 3.14159, 2, 1LL << 40, 2.5L);
    printf("%2$s%2$s %1$05d, %3$S, %4$C\n", 42, "ab", L"w", (wint_t)L'x');
    printf("[%5S] [%-3C]\n", L"wide", (wint_t)L'c');
    printf("%d\n", snprintf(text, sizeof text, "%9999999999d", 1));
    count = sscanf("0x1f longerthanthat abc", "%x %ms %m[a-b]", &number, &word, &letters);
    printf("%d %u %s %s\n", count, number, word, letters);
    free(word);
    free(letters);
    count = sscanf("31 ab wide", "%2$d %1$s %3$S", text, &number, wide);
    printf("%d %s %u %ls\n", count, text, number, wide);
}

int main(void)
{
    bsp_begin(bsp_nprocs());
    if (bsp_pid() == 0) {
        words("a,b,", ",");
        words(",a;;b", ",;");
        words("", ",");
        options("ab:c");
        options("+:ab:c");
        options("-ab::c");
        dates();
        conversions();
    }
    bsp_end();
    return 0;
}
