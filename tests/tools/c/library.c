/* What programs use of a C library, with and without one. */
#include <bsp.h>
#include <stdio.h>
#include <stdlib.h>
#include <string.h>

static int down(const void *left, const void *right)
{
    return *(const int *)right - *(const int *)left;
}

static void formats(void)
{
    char text[8];
    const char *volatile longer = "longer than that"; /* no compiler knows what is cut off */
    int count;

    printf("[%d][%5d][%-5d][%05d][%+d][% d][%.3d]\n", 42, 42, 42, 42, 42, 42, 7);
    printf("[%u][%x][%X][%#x][%o][%08x]\n", 4000000000u, 0xbeefu, 0xbeefu, 255u, 8u, 0x1234u);
    printf("[%ld][%lld][%llu][%llx]\n", -2147483647L - 1, -9223372036854775807LL, 18446744073709551615ULL, 1ULL << 40);
    printf("[%hd][%hhu][%zu]\n", (short)-3, (unsigned char)200, sizeof(int));
    printf("[%c][%s][%10s][%-10s][%.2s][%*d][%%]\n", 'x', "abc", "abc", "abc", "abc", 6, -1);
    count = snprintf(text, sizeof text, "%s", longer);
    printf("%d %s\n", count, text);
}

static void memory(void)
{
    int *numbers = malloc(10 * sizeof(int)), *zeros = calloc(4, sizeof(int));
    char *texts[50];

    for (int i = 0; i < 10; i++)
        numbers[i] = i * 7 % 10;
    qsort(numbers, 10, sizeof(int), down);
    for (int i = 0; i < 10; i++)
        printf("%d ", numbers[i]);
    printf("%d\n", zeros[0] + zeros[3]);
    free(numbers);
    /* More than the memory has, if nothing were given back. */
    for (int round = 0; round < 20; round++) {
        for (int i = 0; i < 50; i++) {
            texts[i] = malloc((size_t)(100 + 40 * i));
            if (texts[i] == NULL || (size_t)texts[i] % 8 != 0)
                bsp_abort("malloc gave %p\n", (void *)texts[i]);
            texts[i][0] = (char)i;
            texts[i][99 + 40 * i] = (char)round;
        }
        for (int i = 0; i < 50; i++) {
            if (texts[i][0] != i || texts[i][99 + 40 * i] != round)
                bsp_abort("what malloc gave was changed\n");
            free(texts[i]);
        }
    }
    printf("%s\n", malloc(100000000) == NULL ? "no memory" : "memory");
}

static void strings(void)
{
    char text[32];

    strcpy(text, "bulk");
    memmove(text + 2, text, 5);
    printf("%s %d %d %d\n", text, (int)strlen(text), strcmp("a", "b") < 0, strncmp("abc", "abd", 2));
    memset(text, 'z', 3);
    printf("%s %d %s %d\n", text, memcmp("ab", "ab", 2), strchr("a-b", '-'), atoi(" -12x"));
}

/* Bytes from one place to another, and bytes that are all the same, beside what each byte has to be. */
static void copy(int to, int from, int count)
{
    static unsigned char bytes[3][56];

    for (int i = 0; i < 56; i++) {
        bytes[0][i] = bytes[1][i] = (unsigned char)(3 * i);
        bytes[2][i] = 255;
    }
    memcpy(bytes[2] + to, bytes[0] + from, (size_t)count);
    memmove(bytes[1] + to, bytes[1] + from, (size_t)count);
    memset(bytes[0] + to, 256 + 77, (size_t)count);
    for (int i = 0; i < 56; i++) {
        int is_there = i >= to && i < to + count, there = 3 * (i + from - to);
        if (bytes[2][i] != (is_there ? there : 255) || bytes[1][i] != (is_there ? there : 3 * i) || bytes[0][i] != (is_there ? 77 : 3 * i))
            printf("byte %d of %d from %d to %d\n", i, count, from, to);
    }
}

static void copies(void)
{
    static const int counts[] = {0, 1, 7, 8, 11, 32, 45};

    for (int i = 0; i < (int)(sizeof counts / sizeof *counts); i++)
        for (int to = 0; to < 5; to++)
            for (int from = 0; from < 5; from++)
                copy(to, from, counts[i]);
    copy(11, 0, 40);
    copy(0, 11, 40);
}

static void input(void)
{
    char word[16], line[16];
    int number = 0, fields, other = 0, last = 0;
    unsigned first = 0;
    long long large = 0;

    fields = scanf("%d %15s %lld", &number, word, &large);
    printf("%d: %d %s %lld\n", fields, number, word, large);
    fields = scanf("%4x%i,%i %i", &first, &number, &other, &last);
    printf("%d: %u %d %d %d\n", fields, first, number, other, last);
    printf("%d\n", getchar());
    while (fgets(line, sizeof line, stdin) != NULL)
        printf("(%s)", line);
    printf(" %d\n", getchar());
}

int main(int argc, char **argv)
{
    bsp_begin(bsp_nprocs());
    formats();
    memory();
    strings();
    copies();
    input();
    fprintf(stderr, "%d arguments, %s\n", argc - 1, argv[0]);
    bsp_end();
    printf("not lost at the end");
    return 0;
}
