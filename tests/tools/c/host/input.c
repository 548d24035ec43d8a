/* Standard input. A call is a script of steps in the first line, and what is read by them stands behind it: each call is a run. The whole
   line is taken by getchar, up to its end. */
#include "calls.h"

enum { ROOM = 3000 };

static char room[ROOM];
#ifdef SEEKS
static long begin;
#endif

static long operand(char **at)
{
    long number = 0;
    int is_negative = **at == '-';
    for (*at += is_negative; **at >= '0' && **at <= '9'; ++*at)
        number = 10 * number + **at - '0';
    *at += **at == ':';
    return is_negative ? -number : number;
}

static void scan(int kind)
{
    int number = 77, count = -1, answer;
    double real = 77;
    char byte = '?';
    *room = '\0';
    if (kind == 0)
        answer = scanf("%100s", room);
    else if (kind == 1)
        answer = scanf("%d", &number);
    else if (kind == 2)
        answer = scanf("%c", &byte);
    else if (kind == 3)
        answer = scanf("%5d%n", &number, &count);
    else if (kind == 4)
        answer = scanf(" %50[^\n]", room);
    else if (kind == 5)
        answer = scanf("%lf", &real);
    else
        answer = scanf("%x %i", (unsigned *)&number, &count);
    say_number(answer);
    say_text(room);
    say_number(number);
    say_number(count);
    say_number(byte);
    say_real(real);
}

#ifdef SEEKS
static void go(char letter, char *at)
{
    static const int ways[] = {SEEK_SET, SEEK_CUR, SEEK_END};
    long offset = operand(&at);
    if (letter == 't')
        say_number(ftell(stdin) - begin);
    else if (letter == 'k') {
        int way = ways[operand(&at)];
        say_number(fseek(stdin, offset + (way == SEEK_SET ? begin : 0), way));
    } else {
        rewind(stdin);
        say_number(fseek(stdin, begin, SEEK_SET));
    }
}
#endif

static void read_line(void)
{
    char *line = NULL;
    size_t size = 0;
    ssize_t count = getline(&line, &size, stdin);
    say_number(count);
    if (count >= 0)
        say_bytes(line, (size_t)count);
    free(line);
}

static void make_step(char *step)
{
    char letter = *step++, *at = step;
    long first = operand(&at);
    switch (letter) {
    case 'g':
        say_number(getchar());
        break;
    case 'c':
        say_number(getc(stdin));
        break;
    case 'l':
        say_text(fgets(room, (int)first, stdin));
        break;
    case 'r': {
        size_t count = fread(room, (size_t)first, (size_t)operand(&at), stdin);
        say_number((int64_t)count);
        say_bytes(room, count * (size_t)first);
        break;
    }
    case 'u':
        say_number(ungetc((int)first, stdin));
        break;
    case 'L':
        read_line();
        break;
    case 's':
        scan((int)first);
        break;
    case 'e':
        clearerr(stdin);
        break;
#ifdef SEEKS
    case 't':
    case 'k':
    case 'w':
        go(letter, step);
        break;
#endif
    default:
        /* The number of what is read. */
        return;
    }
    say(feof(stdin) ? "end" : ".");
    say(ferror(stdin) ? "error" : ".");
}

int main(void)
{
    read_call();
#ifdef SEEKS
    begin = ftell(stdin);
#endif
    while (has_word()) {
        say(";");
        make_step(read_word());
    }
    end_call();
    return 0;
}
