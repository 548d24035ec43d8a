/* Files and their streams. A call is a script of steps, over four names and four streams. Each step is a word, with its operands behind
   colons in it: the function's name, the number of a stream, and what it is given. A number of a name from 4 on is that of a file that
   bsprun gives. Behind each step stands what it answers. At the end all streams are closed, and the bytes of all files are said. */
#include <fcntl.h>
#include <sys/stat.h>
#include <unistd.h>

#include "calls.h"

enum { STREAMS = 4, NAMES = 4, ROOM = 9000 };

static const char *const names[NAMES] = {"one", "two", "three.txt", "folder.d"};
static char given_name[16];
static char room[ROOM];
/* What was done last with a stream, since C wants fseek or fflush between reading and writing. */
static struct {
    FILE *file;
    char last;
    int pushed, is_readable, is_used;
    fpos_t kept;
    int has_kept;
} streams[STREAMS];

static char *next_operand;

static char *operand(void)
{
    char *from = next_operand;
    while (*next_operand != '\0' && *next_operand != ':')
        next_operand++;
    if (*next_operand == ':')
        *next_operand++ = '\0';
    return from;
}

static long number_operand(void)
{
    const char *from = operand();
    long number = 0;
    int is_negative = *from == '-';
    for (from += is_negative; *from != '\0'; from++)
        number = 10 * number + *from - '0';
    return is_negative ? -number : number;
}

/* A text of so many bytes, which begins with a number and goes on by a rule. */
static size_t text_operand(void)
{
    unsigned from = (unsigned)number_operand();
    size_t count = (size_t)number_operand();
    for (size_t i = 0; i < count; i++) {
        from = from * 1103515245u + 12345u;
        room[i] = (from >> 16) % 11 == 0 ? '\n' : (char)((from >> 16) % 7 == 0 ? (from >> 20) % 255 + 1 : 'a' + (from >> 20) % 26);
    }
    room[count] = '\0';
    return count;
}

/* Says that a call failed, with its reason. */
static void say_failure(int has_failed)
{
    if (has_failed)
        say_errno();
}

static void say_opened(int i, FILE *file)
{
    streams[i].file = file;
    streams[i].last = '\0';
    streams[i].pushed = streams[i].is_used = 0;
    streams[i].has_kept = 0;
    say(file == NULL ? "NULL" : "open");
    say_failure(file == NULL);
}

/* Makes what C wants between reading and writing. */
static void turn_to(int i, char way)
{
    /* C11 7.21.7.10p5 leaves open from where SEEK_CUR counts while a byte of a text stream is put back. */
    if (streams[i].pushed && way == 'w')
        rewind(streams[i].file);
    else if (streams[i].last != '\0' && streams[i].last != way)
        fseek(streams[i].file, 0, SEEK_CUR);
    streams[i].last = way;
    if (way == 'w')
        streams[i].pushed = 0;
}

static const char *name_operand(void)
{
    char digits[12] = "";
    long number = number_operand();
    int at = sizeof digits - 1;
    if (number < NAMES)
        return names[number];
    for (; number > 0; number /= 10)
        digits[--at] = (char)('0' + number % 10);
    strcpy(given_name, "g");
    return strcat(given_name, digits + at);
}

static void open_or_close(const char *step, int i)
{
    const char *name = name_operand(), *mode = operand();
    streams[i].is_readable = strchr(mode, '+') != NULL || *mode == 'r';
    if (strcmp(step, "fopen") == 0)
        say_opened(i, fopen(name, mode));
    else if (strcmp(step, "freopen") == 0)
        say_opened(i, freopen(name, mode, streams[i].file));
    else if (strcmp(step, "tmpfile") == 0)
        say_opened(i, tmpfile());
    else if (strcmp(step, "remove") == 0) {
        int answer = remove(name);
        say_number(answer);
        say_failure(answer != 0);
    } else {
        int answer = rename(name, names[*mode - '0']);
        say_number(answer);
        say_failure(answer != 0);
    }
}

static void write_some(const char *step, int i)
{
    FILE *file = streams[i].file;
    size_t count;
    turn_to(i, 'w');
    if (strcmp(step, "fputc") == 0) {
        say_number(fputc((int)number_operand(), file));
    } else if (strcmp(step, "putw") == 0) {
        say_number(putc((int)number_operand(), file));
    } else if (strcmp(step, "fprintf") == 0) {
        int number = (int)number_operand();
        say_number(fprintf(file, "%d %s%5.2f\n", number, "and", number / 8.0));
    } else if (strcmp(step, "fputs") == 0) {
        text_operand();
        say_number(fputs(room, file) >= 0);
    } else {
        size_t size = (size_t)number_operand();
        count = text_operand();
        say_number((int64_t)fwrite(room, size, size > 0 ? count / size : count, file));
    }
    say_number(ferror(file) != 0);
}

static void read_line(FILE *file)
{
    char *line = NULL;
    size_t size = 0;
    ssize_t count = getline(&line, &size, file);
    say_number(count);
    if (count >= 0)
        say_bytes(line, (size_t)count + 1);
    free(line);
}

static void read_some(const char *step, int i)
{
    FILE *file = streams[i].file;
    int was_pushed = streams[i].pushed;
    turn_to(i, 'r');
    streams[i].pushed = 0;
    if (strcmp(step, "fgetc") == 0) {
        say_number(fgetc(file));
    } else if (strcmp(step, "getc") == 0) {
        say_number(getc(file));
    } else if (strcmp(step, "getline") == 0 && ferror(file)) {
        /* glibc's fails then, whatever can be read. */
        say("-");
    } else if (strcmp(step, "getline") == 0) {
        read_line(file);
    } else if (strcmp(step, "fgets") == 0) {
        int size = (int)number_operand();
        say_text(fgets(room, size, file));
        /* A line of no bytes takes none that was put back. */
        streams[i].pushed = was_pushed && size == 1;
    } else if (strcmp(step, "fscanf") == 0 && !streams[i].is_readable) {
        /* glibc's says nothing of an error, where POSIX wants one. */
        say("-");
    } else if (strcmp(step, "fscanf") == 0) {
        char word[40] = "";
        int answer = fscanf(file, "%30s", word);
        /* The byte that fscanf leaves takes no place. */
        streams[i].pushed = 0;
        say_number(answer);
        say_text(word);
    } else {
        size_t size = (size_t)number_operand(), count = (size_t)number_operand(), parts = fread(room, size, count, file);
        streams[i].pushed = was_pushed && size * count == 0;
        say_number((int64_t)parts);
        say_bytes(room, parts * size);
    }
    say(feof(file) ? "end" : ".");
    say(ferror(file) ? "error" : ".");
}

static void push_back(int i)
{
    int byte = (int)number_operand();
    /* At the beginning C11 7.21.7.10p5 leaves the place open. */
    if (streams[i].last == 'w' || streams[i].pushed || !streams[i].is_readable || ftell(streams[i].file) == 0) {
        say("-");
        return;
    }
    streams[i].last = 'r';
    streams[i].pushed = 1;
    say_number(ungetc(byte, streams[i].file));
    say(feof(streams[i].file) ? "end" : ".");
}

static void go_to(const char *step, int i)
{
    static const int from[] = {SEEK_SET, SEEK_CUR, SEEK_END, 99};
    FILE *file = streams[i].file;
    int answer = 0;
    if (strcmp(step, "rewind") == 0)
        rewind(file);
    else if (strcmp(step, "fseek") == 0) {
        long offset = number_operand();
        answer = fseek(file, offset, from[number_operand()]);
    } else if (strcmp(step, "fseeko") == 0) {
        long offset = number_operand();
        answer = fseeko(file, offset, from[number_operand()]);
    } else if (strcmp(step, "fgetpos") == 0) {
        answer = fgetpos(file, &streams[i].kept);
        streams[i].has_kept = answer == 0;
        say_number(answer != 0);
        return;
    } else if (streams[i].has_kept)
        answer = fsetpos(file, &streams[i].kept);
    else {
        say("-");
        return;
    }
    say_number(answer != 0);
    say_failure(answer != 0);
    /* One that fails undoes no ungetc by C11 7.21.9.2p5, and may do so in glibc. */
    if (answer != 0 && streams[i].pushed)
        rewind(file);
    if (answer == 0 || streams[i].pushed) {
        streams[i].last = '\0';
        streams[i].pushed = 0;
    }
    say(feof(file) ? "end" : ".");
    say_number(ftell(file));
}

static void ask(const char *step, int i)
{
    FILE *file = streams[i].file;
    if (strcmp(step, "ftell") == 0)
        say_number(ftell(file));
    else if (strcmp(step, "ftello") == 0)
        say_number((int64_t)ftello(file));
    else if (strcmp(step, "feof") == 0)
        say_number(feof(file) != 0);
    else if (strcmp(step, "ferror") == 0)
        say_number(ferror(file) != 0);
    else if (strcmp(step, "clearerr") == 0)
        clearerr(file);
    else if (strcmp(step, "fileno") == 0)
        say_number(fileno(file) > 2);
    else if (strcmp(step, "fflush") == 0) {
        /* Of a stream that was read last C leaves it open. */
        if (streams[i].last == 'r')
            say("-");
        else {
            say_number(fflush(file));
            streams[i].last = '\0';
        }
    } else {
        static char rooms[STREAMS][2000];
        static const int modes[] = {_IOFBF, _IOLBF, _IONBF};
        int mode = modes[number_operand()];
        long size = number_operand();
        /* C has it before anything else alone. */
        if (streams[i].is_used)
            say("-");
        else
            say_number(setvbuf(file, size > 0 ? rooms[i] : NULL, mode, (size_t)size));
    }
}

static void close_stream(int i)
{
    say_number(fclose(streams[i].file));
    streams[i].file = NULL;
}

static int is_one_of(const char *step, const char *of)
{
    const char *at = strstr(of, step);
    size_t size = strlen(step);
    return at != NULL && (at == of || at[-1] == ' ') && (at[size] == ' ' || at[size] == '\0');
}

static void make_step(char *step)
{
    int i;
    next_operand = step;
    step = operand();
    i = (int)number_operand();
    errno = 0;
    say(";");
    if (is_one_of(step, "fopen tmpfile remove rename") || (strcmp(step, "freopen") == 0 && streams[i].file != NULL)) {
        if (is_one_of(step, "fopen tmpfile") && streams[i].file != NULL)
            close_stream(i);
        open_or_close(step, i);
    } else if (streams[i].file == NULL)
        say("-");
    else if (is_one_of(step, "fputc putw fprintf fputs fwrite"))
        write_some(step, i);
    else if (is_one_of(step, "fgetc getc getline fgets fscanf fread"))
        read_some(step, i);
    else if (strcmp(step, "ungetc") == 0)
        push_back(i);
    else if (is_one_of(step, "rewind fseek fseeko fgetpos fsetpos"))
        go_to(step, i);
    else if (strcmp(step, "fclose") == 0)
        close_stream(i);
    else
        ask(step, i);
    if (!is_one_of(step, "fopen freopen tmpfile setvbuf"))
        streams[i].is_used = 1;
}

static void say_file(const char *name)
{
    FILE *file = fopen(name, "r");
    struct stat about;
    if (file == NULL) {
        say("none");
        return;
    }
    say_bytes(room, fread(room, 1, sizeof room, file));
    fclose(file);
    say_number(stat(name, &about));
    say_number((int64_t)about.st_size);
}

static void say_files(void)
{
    say("|");
    for (int i = 0; i < NAMES; i++)
        say_file(names[i]);
    if (*given_name != '\0')
        say_file(given_name);
}

int main(void)
{
    while (read_call()) {
        for (int i = 0; i < NAMES; i++)
            remove(names[i]);
        *given_name = '\0';
        while (has_word())
            make_step(read_word());
        for (int i = 0; i < STREAMS; i++)
            if (streams[i].file != NULL) {
                say("|");
                close_stream(i);
            }
        say_files();
        end_call();
    }
    return 0;
}
