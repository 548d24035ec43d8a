/* Start, end, memory and standard streams of a node, which picolibc leaves to the system. */
#include "machine.h"

unsigned bsp_memory_size __attribute__((section(".data"))) = 0; /* set before anything else runs */
enum bsp_part bsp_part = BSP_BEFORE;
int bsp_superstep = 0;
void (*bsp_look_further)(void) = NULL, (*bsp_flush_files)(void) = NULL;
volatile struct bsp_settings bsp_settings = {"\0bsprun\3", 0, 0, {0}};

extern char __heap_start[];
extern void (*__preinit_array_start[])(void), (*__preinit_array_end[])(void);
extern void (*__init_array_start[])(void), (*__init_array_end[])(void);

extern int main(int argc, char **argv);
__attribute__((noreturn)) extern void exit(int status);

/* For references that a C library makes, which calls the functions of .fini_array at exit by itself. */
void _init(void) {}
void _fini(void) {}

/* Standard output. While standard error has bytes, this is full but for one byte: with that, those go first. So a byte more costs nothing
   for the order of the two, nor does a superstep that writes none. */
char bsp_out[BSP_OUT_BYTES];
int bsp_out_count = 0, bsp_out_held = 0;
enum { LAST = BSP_OUT_LAST };

/* Standard error. The machine has one output for both, so that bsprun has what tells them apart written in front of these bytes: it
   finds this place of the image by its magic, and puts a mark there, and how many bytes `mark` and `count` have. It costs the same
   without. */
static struct {
    char magic[16];
    volatile int front;
    char mark[16];
    int count;
    char bytes[256];
} error = {"\0bsprun\2\265\36\310\73\231\7\324", 0, {0}, 0, {0}};

void bsp_stdio_flush(void)
{
    if (bsp_out_count > 0) {
        const char *from = bsp_out;
        int count = bsp_out_count;
        bsp_out_count = 0;
        if (error.count > 0) {
            machine_call_2(CALL_WRITE, (long)error.bytes - error.front, error.count + error.front);
            error.count = 0;
            from = bsp_out + LAST;
            count -= LAST;
        }
        if (count > 0)
            machine_call_2(CALL_WRITE, (long)from, count);
    }
}

int bsp_stdio_put(char byte)
{
    bsp_out[bsp_out_count++] = byte;
    if (byte == '\n' || bsp_out_count == sizeof bsp_out)
        bsp_stdio_flush();
    return 0;
}

int bsp_error_put(char byte)
{
    if (error.count == 0) {
        bsp_stdio_flush();
        bsp_out_count = LAST;
    }
    error.bytes[error.count++] = byte;
    if (byte == '\n' || error.count == sizeof error.bytes)
        bsp_stdio_flush();
    return 0;
}

void bsp_stdio_write(int file, const void *bytes, size_t count)
{
    if (file == 2)
        for (size_t i = 0; i < count; i++)
            bsp_error_put(((const char *)bytes)[i]);
    bsp_stdio_flush();
    if (file != 2)
        machine_call_2(CALL_WRITE, (long)bytes, (long)count);
}

/* Bytes of the input that were read and not taken yet. */
static struct {
    char bytes[256];
    int next, end;
} in;

int bsp_has_input = 0;
const void *bsp_ended_input;

static int fill(void)
{
    in.next = 0;
    in.end = machine_call_2(CALL_READ, (long)in.bytes, sizeof in.bytes);
    bsp_has_input |= in.end;
    return in.end;
}

int bsp_stdio_get(void)
{
    if (in.next == in.end && fill() == 0)
        return -1;
    return (unsigned char)in.bytes[in.next++];
}

int bsp_stdio_go_back(int byte)
{
    if (in.next == 0 || (unsigned char)in.bytes[in.next - 1] != byte)
        return -1;
    in.next--;
    return 0;
}

/* Up to `count` bytes of the input: those that are left in the buffer first, and then those behind it. */
int bsp_input_read(void *to, int count)
{
    int done = 0;
    while (done < count && in.next < in.end)
        ((char *)to)[done++] = in.bytes[in.next++];
    if (done < count)
        done += machine_call_2(CALL_READ, (long)to + done, count - done);
    bsp_has_input |= done;
    return done;
}

void *sbrk(ptrdiff_t change)
{
    static char *heap_end = __heap_start;
    char *old = heap_end;
    ptrdiff_t most = (ptrdiff_t)(bsp_memory_size - (unsigned)heap_end);
    ptrdiff_t least = __heap_start - heap_end;
    if (change > most || change < least)
        return (void *)-1;
    heap_end += change;
    return old;
}

static void put_text(const char *text)
{
    while (*text != '\0')
        bsp_error_put(*text++);
}

static void put_number(int number)
{
    char digits[12];
    int at = sizeof digits - 1;
    unsigned rest = number < 0 ? 0u - (unsigned)number : (unsigned)number;
    digits[at] = '\0';
    do {
        digits[--at] = (char)('0' + rest % 10);
        rest /= 10;
    } while (rest > 0);
    if (number < 0)
        digits[--at] = '-';
    put_text(digits + at);
}

static void begin_line(void)
{
    put_text("bsp: rank ");
    put_number(machine_call_0(CALL_PID));
    put_text(": ");
}

__attribute__((noreturn)) static void abort_node(void)
{
    for (;;)
        machine_call_2(CALL_ABORT, 0, 0);
}

__attribute__((noreturn)) static void end_line(void)
{
    bsp_error_put('\n');
    abort_node();
}

void bsp_stop(const char *text)
{
    begin_line();
    put_text(text);
    end_line();
}

void bsp_stop_with(const char *text, int number, const char *rest)
{
    begin_line();
    put_text(text);
    put_number(number);
    put_text(rest);
    end_line();
}

/* How many arguments main is given, with the program's name. */
static int argument_count = 1;

void bsp_stop_for_null(const char *function)
{
    begin_line();
    put_text(function);
    put_text(" was called with NULL instead of a string");
    if (argument_count == 1)
        put_text(": argv[1] is NULL, because the program got no arguments. Give them after its name, as in bsprun PROGRAM 100");
    end_line();
}

void bsp_stop_for_guards(void)
{
    if (!bsp_null_is_whole())
        bsp_stop("memory at address 0 was written: through a pointer that is NULL, or by a stack that is too deep");
    bsp_stop("memory before the first variable was written, as by an index below 0");
}

/* What bsprun puts in front of the input, where the program is given arguments or files. No text begins with a zero byte. All
   numbers have 4 bytes, the lowest first, and stand at multiples of 4; texts end with a zero byte.

       magic, bytes of the whole block, arguments, files
       for each file how many bytes it has
       the arguments; then for each file its name and its bytes */
static const char magic[8] = "\0bsprun\1";

struct block {
    char magic[8];
    unsigned size, arguments, files;
};

struct bsp_given *bsp_given = NULL;
int bsp_given_count = 0;

static char *take_text(char **at)
{
    char *text = *at;
    while (*(*at)++ != '\0') {
    }
    return text;
}

static void *room(size_t size)
{
    void *place = sbrk((ptrdiff_t)((size + 15) & ~(size_t)15));
    if (size > 0x7ffffff0 || place == (void *)-1)
        bsp_stop("the arguments and files of bsprun do not fit the memory: give --memory");
    return place;
}

/* Takes the block out of the input, where there is one: the number of arguments. */
static int take_block(char ***argv)
{
    const struct block *head = (const struct block *)in.bytes;
    char *at;
    unsigned size, i;
    if (fill() < (int)sizeof *head)
        return 1;
    for (i = 0; i < sizeof magic; i++)
        if (in.bytes[i] != magic[i])
            return 1;
    size = head->size;
    at = room(size);
    head = (const struct block *)at;
    bsp_input_read(at, (int)size);
    *argv = room((head->arguments + 1) * sizeof **argv);
    bsp_given = room(head->files * sizeof *bsp_given);
    bsp_given_count = (int)head->files;
    at += sizeof *head;
    for (i = 0; i < head->files; i++, at += sizeof(unsigned))
        bsp_given[i].size = *(unsigned *)at;
    for (i = 0; i < head->arguments; i++)
        (*argv)[i] = take_text(&at);
    for (i = 0; i < head->files; i++) {
        bsp_given[i].name = take_text(&at);
        bsp_given[i].bytes = at;
        at += bsp_given[i].size;
    }
    bsp_has_input = in.next < in.end;
    return (int)head->arguments;
}

/* Fresh memory of the stack gets a byte that bsprun --fill gives: below what is in use here, down to what NULL points to. */
__attribute__((noinline)) static void fill_stack(void)
{
    const unsigned word = bsp_settings.fill * 0x01010101u;
    volatile unsigned *top = __builtin_frame_address(0);
    for (volatile unsigned *at = top - 32; at >= bsp_null + BSP_NULL_WORDS; at--)
        *at = word;
}

/* What main answers. A main that is declared void answers what was left in a register. */
__attribute__((noreturn)) static void end_of_main(int status)
{
    if (status < 0 || status > 255)
        bsp_stop_with("main returned no value of its own, but ", status, ": make it int main, and return 0 at its end");
    if (status != 0)
        bsp_stop_with("the program ended with status ", status,
                      ", which main returned: 0 says that all went well, and a void main returns no value of its own");
    exit(0);
}

__attribute__((noreturn)) void bsp_start(void)
{
    static char name[] = "program";
    static char *alone[] = {name, NULL};
    char **argv = alone;
    int argc;
#pragma GCC unroll 16
    for (int i = 0; i < BSP_NULL_WORDS; i++)
        bsp_null[i] = BSP_NULL_WORD;
    if (bsp_settings.flags & BSP_FILLED)
        fill_stack();
    argc = argument_count = take_block(&argv);
    for (void (**it)(void) = __preinit_array_start; it != __preinit_array_end; it++)
        (*it)();
    for (void (**it)(void) = __init_array_start; it != __init_array_end; it++)
        (*it)();
    end_of_main(main(argc, argv));
}

/* A status that the program chose. bsprun ends with it, and without bsprun it is told. */
__attribute__((noreturn)) static void end_with(int status)
{
    if (!(bsp_settings.flags & BSP_RECORDS))
        bsp_stop_with("the program ended with status ", status, "");
    bsp_note(NOTE_STATUS, NULL, (unsigned)status, 0, "");
    abort_node();
}

__attribute__((noreturn)) void _exit(int status)
{
    bsp_look_at_guards();
    if (bsp_flush_files != NULL)
        bsp_flush_files();
    if (status != 0)
        end_with(status);
    if (bsp_part == BSP_WITHIN)
        bsp_stop("the program ended between bsp_begin and bsp_end");
    bsp_stdio_flush();
    for (;;)
        machine_call_0(CALL_END);
}

/* What a C library asks for. */
__attribute__((weak)) int getpid(void)
{
    return 1;
}
