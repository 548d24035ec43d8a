/* getopt and getopt_long, instead of picolibc's. There optopt is what was answered, a word of a dash alone is an option, and optind
   passes words that are no options. Words are put behind options as glibc does it. All of it is weak, since a program may have functions of
   these names. */
#include <getopt.h>
#include <stddef.h>
#include <stdio.h>
#include <stdlib.h>
#include <string.h>

#define WEAK __attribute__((weak))

WEAK char *optarg = NULL;
WEAK int optind = 1, opterr = 1, optopt = '?';

/* Where it is: the rest of a word of letters, and the words from `first` up to `last` that are no options and were passed over. */
static struct {
    const char *letter;
    int first, last, is_begun;
} at;

/* What the program looks for, and in what. */
struct options {
    int count;
    char **words;
    const char *letters;
    const struct option *names; /* NULL where there are letters alone */
    int *index;
    int is_dash_enough; /* for a name */
    enum { PUT_BEHIND, STOP_AT, ANSWER } of_others; /* what is done with words that are no options */
};

static int is_other(const struct options *these, int word)
{
    return these->words[word][0] != '-' || these->words[word][1] == '\0';
}

/* Puts the words that were passed over behind the options that followed them. */
static void put_behind(const struct options *these)
{
    int count = at.last - at.first;
    for (int to = at.first, from = at.last; from < optind; to++, from++) {
        char *word = these->words[from];
        memmove(these->words + to + 1, these->words + to, (size_t)count * sizeof *these->words);
        these->words[to] = word;
    }
    at.first += optind - at.last;
    at.last = optind;
}

/* Tells a mistake, where the program does not do so by itself. */
static void tell(const struct options *these, const char *what, const char *name, int length, const char *rest)
{
    if (opterr != 0 && these->letters[0] != ':')
        fprintf(stderr, "%s: %s '%.*s'%s\n", these->words[0], what, length, name, rest);
}

static int missing(const struct options *these)
{
    return these->letters[0] == ':' ? ':' : '?';
}

/* Whether two names come to the same. */
static int is_same(const struct option *one, const struct option *other)
{
    return one->has_arg == other->has_arg && one->flag == other->flag && one->val == other->val;
}

/* The option of this name, or of the one name that begins so: NULL where there is none, or `is_unclear` says that there are several. */
static const struct option *option_named(const struct options *these, const char *name, size_t length, int *is_unclear)
{
    const struct option *found = NULL;
    *is_unclear = 0;
    for (const struct option *it = these->names; it->name != NULL; it++)
        if (strncmp(it->name, name, length) == 0) {
            if (strlen(it->name) == length) {
                *is_unclear = 0;
                return it;
            }
            *is_unclear |= found != NULL && (these->is_dash_enough || !is_same(it, found));
            found = found == NULL ? it : found;
        }
    return *is_unclear ? NULL : found;
}

/* Takes the option that a word names behind its dashes. -1 where its letters are to be looked at. */
static int take_name(const struct options *these, int dashes)
{
    const char *word = these->words[optind], *name = word + dashes;
    size_t length = strcspn(name, "=");
    int is_unclear, spelled = dashes + (int)length;
    const struct option *found = option_named(these, name, length, &is_unclear);
    if (found == NULL && !is_unclear && dashes == 1 && strchr(these->letters, *name) != NULL)
        return -1;
    optind++;
    at.letter = NULL;
    if (found == NULL) {
        optopt = 0;
        if (is_unclear)
            tell(these, "option", word, (int)strlen(word), " is ambiguous");
        else
            tell(these, "unrecognized option", word, (int)strlen(word), "");
        return '?';
    }
    if (name[length] == '=' && found->has_arg == no_argument) {
        tell(these, "option", word, spelled, " doesn't allow an argument");
        optopt = found->val;
        return '?';
    }
    if (name[length] == '=')
        optarg = (char *)name + length + 1;
    else if (found->has_arg == required_argument) {
        if (optind == these->count) {
            tell(these, "option", word, spelled, " requires an argument");
            optopt = found->val;
            return missing(these);
        }
        optarg = these->words[optind++];
    }
    if (these->index != NULL)
        *these->index = (int)(found - these->names);
    if (found->flag == NULL)
        return found->val;
    *found->flag = found->val;
    return 0;
}

/* Takes the next letter of a word. */
static int take_letter(const struct options *these)
{
    const char *letter = at.letter++, *known = *letter == ':' || *letter == ';' ? NULL : strchr(these->letters, *letter);
    int is_last = *at.letter == '\0';
    optind += is_last;
    if (known == NULL) {
        tell(these, "invalid option --", letter, 1, "");
        optopt = (unsigned char)*letter;
        return '?';
    }
    if (known[1] != ':')
        return (unsigned char)*letter;
    if (!is_last) {
        optarg = (char *)at.letter;
        optind++;
    } else if (known[2] != ':') {
        if (optind == these->count) {
            tell(these, "option requires an argument --", letter, 1, "");
            optopt = (unsigned char)*letter;
            at.letter = NULL;
            return missing(these);
        }
        optarg = these->words[optind++];
    }
    at.letter = NULL;
    return (unsigned char)*letter;
}

/* Passes over words that are no options, and comes to the next option: 0 where there is none. */
static int find_word(const struct options *these)
{
    at.last = at.last < optind ? at.last : optind;
    at.first = at.first < optind ? at.first : optind;
    if (these->of_others == PUT_BEHIND) {
        if (at.first != at.last)
            put_behind(these);
        else
            at.first = optind;
        while (optind < these->count && is_other(these, optind))
            optind++;
        at.last = optind;
    }
    if (optind < these->count && strcmp(these->words[optind], "--") == 0) {
        optind++;
        if (at.first != at.last)
            put_behind(these);
        else
            at.first = optind;
        at.last = optind = these->count;
    }
    if (optind < these->count)
        return 1;
    optind = at.first != at.last ? at.first : optind;
    return 0;
}

static void begin(struct options *these)
{
    if (optind == 0 || !at.is_begun) {
        optind = optind > 0 ? optind : 1;
        at.first = at.last = optind;
        at.letter = NULL;
        at.is_begun = 1;
    }
    these->of_others = *these->letters == '-' ? ANSWER : *these->letters == '+' || getenv("POSIXLY_CORRECT") != NULL ? STOP_AT : PUT_BEHIND;
    these->letters += *these->letters == '-' || *these->letters == '+';
    optarg = NULL;
}

static int next_option(struct options these)
{
    if (these.count < 1)
        return -1;
    begin(&these);
    if (at.letter == NULL || *at.letter == '\0') {
        const char *word;
        if (!find_word(&these))
            return -1;
        if (is_other(&these, optind)) {
            if (these.of_others == STOP_AT)
                return -1;
            optarg = these.words[optind++];
            return 1;
        }
        word = these.words[optind];
        if (these.names != NULL && word[1] == '-')
            return take_name(&these, 2);
        if (these.is_dash_enough && (word[2] != '\0' || strchr(these.letters, word[1]) == NULL)) {
            int answer = take_name(&these, 1);
            if (answer != -1)
                return answer;
        }
        at.letter = word + 1;
    }
    return take_letter(&these);
}

WEAK int getopt(int count, char *const words[], const char *letters)
{
    return next_option((struct options){count, (char **)words, letters, NULL, NULL, 0, PUT_BEHIND});
}

WEAK int getopt_long(int count, char *const words[], const char *letters, const struct option *names, int *index)
{
    return next_option((struct options){count, (char **)words, letters, names, index, 0, PUT_BEHIND});
}

WEAK int getopt_long_only(int count, char *const words[], const char *letters, const struct option *names, int *index)
{
    return next_option((struct options){count, (char **)words, letters, names, index, 1, PUT_BEHIND});
}
