/* Functions that other libraries have by these names. */
#include <bsp.h>
#include <ctype.h>
#include <stdio.h>
#include <stdlib.h>
#include <string.h>

static char *strlwr(char *text)
{
    for (char *at = text; *at; at++)
        *at = (char)tolower((unsigned char)*at);
    return text;
}

static char *itoa(int number, int base)
{
    static char text[40];
    char *at = text + sizeof text - 1;
    do
        *--at = "0123456789abcdef"[number % base];
    while (number /= base);
    return at;
}

static int poll(int what) { return what + 1; }
static int error(const char *text) { return (int)strlen(text); }

int main(void)
{
    char text[] = "Mixed CASE";
    bsp_begin(bsp_nprocs());
    printf("%s %s %d %d\n", strlwr(text), itoa(255 + bsp_pid(), 16), poll(1), error("four"));
    bsp_end();
    return 0;
}
