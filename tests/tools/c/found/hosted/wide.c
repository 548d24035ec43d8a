/* Texts of several kinds: wide ones, numbers in other bases, and times that are spelled. */
#include <bsp.h>
#include <locale.h>
#include <stdio.h>
#include <stdlib.h>
#include <string.h>
#include <time.h>
#include <wchar.h>

int main(void)
{
    wchar_t wide[32];
    char text[64], *end, *copy;
    time_t when = 86400 * 365;
    setlocale(LC_ALL, "C");
    bsp_begin(bsp_nprocs());
    mbstowcs(wide, "wide text", 32);
    wcscat(wide, L"!");
    strftime(text, sizeof text, "%Y-%m-%d %H:%M", gmtime(&when));
    copy = strdup("a,b,,c");
    printf("%d %s %ld %lu", (int)wcslen(wide), text, strtol("0x1F", &end, 0), strtoul("777", NULL, 8));
    for (char *rest = copy, *it; (it = strsep(&rest, ",")) != NULL;)
        printf(" [%s]", it);
    printf(" %+.3e %5.1f%% %c\n", 12345.678, 99.5, 'x');
    free(copy);
    bsp_end();
    return 0;
}
