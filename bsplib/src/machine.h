/* The machine's environment calls, and what the files of this library share. docs/manual/machine.md has the calls' rules. */
#ifndef BSP_MACHINE_H
#define BSP_MACHINE_H

#include <stddef.h>

enum {
    CALL_END = 1, CALL_NPROCS, CALL_PID, CALL_SYNC, CALL_PUSH_REG, CALL_POP_REG, CALL_PUT, CALL_GET, CALL_HPPUT,
    CALL_HPGET, CALL_SET_TAGSIZE, CALL_SEND, CALL_QSIZE, CALL_GET_TAG, CALL_MOVE, CALL_ABORT, CALL_WRITE, CALL_READ,
    CALL_CLOCK
};

/* A call reads and writes memory that its operands name, so the compiler has to have everything in its place. */
static inline int machine_call(int number, long a, long b, long c, long d, long e)
{
    register long a0 __asm__("a0") = a;
    register long a1 __asm__("a1") = b;
    register long a2 __asm__("a2") = c;
    register long a3 __asm__("a3") = d;
    register long a4 __asm__("a4") = e;
    register long a7 __asm__("a7") = number;
    __asm__ volatile("ecall" : "+r"(a0) : "r"(a1), "r"(a2), "r"(a3), "r"(a4), "r"(a7) : "memory");
    return a0;
}

static inline int machine_call_0(int number)
{
    register long a0 __asm__("a0");
    register long a7 __asm__("a7") = number;
    __asm__ volatile("ecall" : "=r"(a0) : "r"(a7) : "memory");
    return a0;
}

static inline int machine_call_2(int number, long a, long b)
{
    register long a0 __asm__("a0") = a;
    register long a1 __asm__("a1") = b;
    register long a7 __asm__("a7") = number;
    __asm__ volatile("ecall" : "+r"(a0) : "r"(a1), "r"(a7) : "memory");
    return a0;
}

/* What the machine's clock shows, in ticks. A node without one faults. */
static inline unsigned long long machine_clock(void)
{
    register unsigned long a0 __asm__("a0");
    register unsigned long a1 __asm__("a1");
    register long a7 __asm__("a7") = CALL_CLOCK;
    __asm__ volatile("ecall" : "=r"(a0), "=r"(a1) : "r"(a7) : "memory");
    return (unsigned long long)a1 << 32 | a0;
}

/* Standard output and standard error have a buffer each, which goes to the machine at the end of each line, where it is full, and before
   the other one takes a byte. */
int bsp_stdio_put(char byte);
int bsp_error_put(char byte);

/* Has the machine take what stands in both. */
void bsp_stdio_flush(void);

/* The buffer of standard output, and how many bytes it has. While standard error has bytes, this is full but for one. bsprun finds these by
   their names, and writes what a node has left there that was stopped. */
enum { BSP_OUT_BYTES = 1024, BSP_OUT_LAST = BSP_OUT_BYTES - 1 };
extern char bsp_out[BSP_OUT_BYTES];
extern int bsp_out_count;

/* How many bytes of a line were held at the last bsp_sync: lines come out whole, whatever superstep they were begun in. */
extern int bsp_out_held;
static inline void bsp_stdio_hold(void)
{
    bsp_out_held = bsp_out_count;
    if (bsp_out_held >= BSP_OUT_LAST)
        bsp_stdio_flush();
}

/* Writes bytes at once: on standard error where `file` is 2, else on standard output. */
void bsp_stdio_write(int file, const void *bytes, size_t count);

/* The next byte of the input, or -1. */
int bsp_stdio_get(void);

/* Makes the byte that was taken last the next one again, if it is this one: 0, and else -1. */
int bsp_stdio_go_back(int byte);

/* Whether some byte of the input has come so far. */
extern int bsp_has_input;

/* The stream of the input once it was read at its end. */
extern const void *bsp_ended_input;

/* Up to `count` bytes of the input, from the next one on: how many there were. */
int bsp_input_read(void *to, int count);

/* Writes on standard error "bsp: rank R: ", the text, the number where the text is followed by one, and the rest, and stops this node. */
__attribute__((noreturn)) void bsp_stop(const char *text);
__attribute__((noreturn)) void bsp_stop_with(const char *text, int number, const char *rest);

/* Stops this node where a function is given NULL in the place of a text. */
__attribute__((noreturn, cold)) void bsp_stop_for_null(const char *function);

/* Where nothing has its place: what NULL points to, and what an index below the first variable comes to. The first has a word over and
   over that is no likely value: as a text it has no letter and no digit, as a number it is far from 0, as an address outside of the memory. */
enum { BSP_NULL_WORDS = 16 };
#define BSP_NULL_WORD 0xe5a6d39bu
extern volatile unsigned bsp_null[BSP_NULL_WORDS];
extern const volatile unsigned bsp_guard[4];
__attribute__((noreturn, cold)) void bsp_stop_for_guards(void);

/* What is looked at besides in each superstep, where bsprun --warn asks for it, or NULL. */
extern void (*bsp_look_further)(void);

/* Whether the words at NULL are what they were. Their sum tells, in few instructions, since each bsp_sync has them. */
static inline int bsp_null_is_whole(void)
{
    unsigned sum = 0;
#pragma GCC unroll 16
    for (int i = 0; i < BSP_NULL_WORDS; i++)
        sum += bsp_null[i];
    return sum == BSP_NULL_WORDS * BSP_NULL_WORD;
}

/* Stops this node where one of these was written. */
static inline void bsp_look_at_guards(void)
{
    if (!bsp_null_is_whole() || (bsp_guard[0] | bsp_guard[1] | bsp_guard[2] | bsp_guard[3]) != 0)
        bsp_stop_for_guards();
    if (bsp_look_further != NULL)
        bsp_look_further();
}

/* A file that came in front of the input. */
struct bsp_given {
    const char *name;
    const char *bytes;
    size_t size;
};
extern struct bsp_given *bsp_given;
extern int bsp_given_count;

/* What bsprun puts into a copy of the image before it runs it: it finds the place by its magic. So a program makes as many instructions
   with it as without. */
struct bsp_settings {
    char magic[8];
    unsigned flags;
    unsigned fill; /* the byte of fresh memory, with BSP_FILLED */
    char mark[16]; /* what stands in front of each record, with the record's kind as the last byte */
};
extern volatile struct bsp_settings bsp_settings;
enum { BSP_RECORDS = 1, BSP_WRITES_FILES = 2, BSP_LOOKS = 4, BSP_FILLED = 8 };

/* The bytes of the memory. */
extern unsigned bsp_memory_size;

/* Where the program is: before bsp_begin, between it and bsp_end, or after that. */
extern enum bsp_part { BSP_BEFORE, BSP_WITHIN, BSP_AFTER } bsp_part;

/* The time in seconds, where the node has a clock: else 0, but where a program reads it over and over. Whether it has one, and how long
   a tick takes. bsprun tells of a program that reads the clock what its seconds are, but for readings that are made untold. */
double bsp_clock(void);
double bsp_clock_untold(void);
int bsp_has_clock(void);
double bsp_tick(void);

/* The superstep, from 0 on. */
extern int bsp_superstep;

/* In a program of bspcc --portable: how many puts, gets and messages this rank has made in the superstep, and what tells bsprun of an access
   to bytes of an unbuffered call. In one of bspcc --portable=accesses also what looks at an access that the program is about to make, at a
   place in its code, and at the last one of a superstep. */
extern unsigned bsp_requested;
void bsp_log_access(int is_write, const void *place, unsigned start, unsigned size);
__attribute__((weak)) void bsp_access(const void *address, size_t size, int is_write, const void *place);
__attribute__((weak)) void bsp_end_accesses(void);

/* What goes to bsprun through the output: records, each behind a mark, its kind and how many bytes it has. Where bsprun does not ask for
   them, nobody would part them from the output, and none is written. tools/bsptools/outputs/output_records.py reads them. */
enum {
    RECORD_NAME = 'f', /* number and name of a file that is written */
    RECORD_BYTES = 'b', /* number, place in the file, and bytes that stand there */
    RECORD_SIZE = 's', /* number, and how many bytes the file keeps */
    RECORD_REMOVED = 'r', /* number of a file that is taken away */
    RECORD_NOTE = 'n' /* what is to be told of the run: what it is, superstep, place in the code, two numbers, and a text */
};
enum { MOST_RECORD_WORDS = 5, MOST_RECORD_BYTES = 1024 };
void bsp_record(int kind, const unsigned *words, int count, const void *bytes, int size);

/* What a note tells. */
enum {
    NOTE_REFUSED = 'm', /* bytes that were asked for, and bytes that are in use; the function's name */
    NOTE_ABSENT = 'r', /* the name of a file that was to be read */
    NOTE_ASKED = 'a', /* the name of a file that is looked for, and is exactly that of none */
    NOTE_UNWRITTEN = 'w', /* the name of a file that was to be written */
    NOTE_LOST = 'l', /* the name of a file that was written and is to be read, of which there was no memory to keep its bytes */
    NOTE_PENDING = 'p', /* of requests before the end, the place of the last one */
    NOTE_EMPTY = 'i', /* a number was read from an input of no bytes */
    NOTE_CLOCK = 'c', /* the clock is read */
    NOTE_STATUS = 's', /* the status other than 0 that the program ended with by exit */
    NOTE_READ = 'd', /* the digits of a number that is read and does not fit into 32 bits, and the function */
    NOTE_LONG = 'o' /* line and column of what does not fit into 32 bits; file, line and what it is */
};
void bsp_note(int what, const void *place, unsigned one, unsigned other, const char *text);

/* Notes that a function reads this number into a `long`, which it does not fit, once for each node. Each may be the negative of one. */
__attribute__((cold)) void bsp_note_read(const char *function, unsigned long long number, int is_negative);

/* Writes what open files hold back, or NULL where the program has opened none. */
extern void (*bsp_flush_files)(void);

#endif
