/* getopt and getopt_long. A call is the function, the letters, how many long options there are, each a name, whether it takes an argument
   and whether it stores its value, and then the words of the command line. */
#include <getopt.h>
#include <unistd.h>

#include "calls.h"

enum { MOST_WORDS = 24, MOST_OPTIONS = 8 };

static char *arguments[MOST_WORDS + 2], *places[MOST_WORDS + 2];
static struct option options[MOST_OPTIONS + 1];
static int stored;
static char name[] = "program";

/* A word as its place in the command line at first, and how far in it. */
static void say_argument(const char *argument, int count)
{
    if (argument == NULL) {
        say("NULL");
        return;
    }
    for (int i = 0; i < count; i++)
        if (argument >= places[i] && argument <= places[i] + strlen(places[i])) {
            say_number(i);
            say_place(argument, places[i]);
            return;
        }
    say("elsewhere");
}

static void ask(const char *function, int count, const char *letters)
{
    int is_long = strcmp(function, "getopt_long") == 0, which = -1, found;
    /* glibc begins anew for 0 alone, and so does the node: for 1 it goes on in the middle of a word. */
    optind = 0;
    opterr = 0;
    for (int turns = 0; turns < 40; turns++) {
        stored = which = -1;
        optarg = NULL;
        optopt = '\0';
        found = is_long ? getopt_long(count, arguments, letters, options, &which) : getopt(count, arguments, letters);
        say(";");
        say_number(found);
        if (found == -1)
            break;
        say_argument(optarg, count);
        say_number(which);
        say_number(stored);
        if (found == '?' || found == ':')
            say_number(optopt);
    }
    say_number(optind);
    /* In which order the words are then. */
    for (int i = 0; i < count; i++)
        say_argument(arguments[i], count);
}

int main(void)
{
    while (read_call()) {
        const char *function = read_word(), *letters = read_text();
        int count = 1, many = (int)read_number();
        memset(options, 0, sizeof options);
        for (int i = 0; i < many; i++) {
            options[i].name = read_text();
            options[i].has_arg = (int)read_number();
            options[i].flag = read_number() ? &stored : NULL;
            options[i].val = (int)read_number();
        }
        arguments[0] = places[0] = name;
        for (; has_word() && count < MOST_WORDS; count++)
            arguments[count] = places[count] = read_text();
        arguments[count] = NULL;
        ask(function, count, letters);
        end_call();
    }
    return 0;
}
