/* Makes one instruction of operations.h over and over. The input has its number in four bytes, and then for each time the operands, three
   registers of 64 bits, and in 32 bits each what frm has, and the instruction's own field for a rounding mode, where it rounds; written are
   the result, in 64 bits, and the flags that it raised, in 32. It is a program of a node, or with LINUX one of Linux, which qemu runs. */
#include <stdint.h>

#ifdef LINUX
enum { END = 93, WRITE = 64, READ = 63 };
#else
enum { END = 1, WRITE = 17, READ = 18 };
#endif
enum { BLOCK = 512 };
enum { RNE, RTZ, RDN, RUP, RMM };

typedef struct {
    uint64_t operands[3];
    uint32_t frm;
    uint32_t field;
} Case;

typedef struct {
    uint32_t result[2];
    uint32_t flags;
} Answer;

/* A call of the machine. That of Linux takes a file besides, in front: standard input is 0, and standard output 1. */
static long machine(long number, void *place, long count)
{
    register long a7 __asm__("a7") = number;
#ifdef LINUX
    register long a0 __asm__("a0") = number == WRITE;
    register long a1 __asm__("a1") = (long)place;
    register long a2 __asm__("a2") = count;
    __asm__ volatile("ecall" : "+r"(a0) : "r"(a1), "r"(a2), "r"(a7) : "memory");
#else
    register long a0 __asm__("a0") = (long)place;
    register long a1 __asm__("a1") = count;
    __asm__ volatile("ecall" : "+r"(a0) : "r"(a1), "r"(a7) : "memory");
#endif
    return a0;
}

#define LOADS_FF "fld fa1,0(%0)\n"
#define LOADS_XF LOADS_FF
#define LOADS_FFF LOADS_FF "fld fa2,8(%0)\n"
#define LOADS_XFF LOADS_FFF
#define LOADS_FFFF LOADS_FFF "fld fa3,16(%0)\n"
#define LOADS_FX "lw a1,0(%0)\n"
#define STORES_F "fsd fa0,0(%1)\n"
#define STORES_X "sw a0,0(%1)\nsw zero,4(%1)\n"
#define STORES_FF STORES_F
#define STORES_FFF STORES_F
#define STORES_FFFF STORES_F
#define STORES_FX STORES_F
#define STORES_XF STORES_X
#define STORES_XFF STORES_X

#define MAKE(kind, text) \
    __asm__ volatile("lw a2,24(%0)\nfsrm a2\n" LOADS_##kind "fsflags zero\n" text "\nfrflags a2\n" STORES_##kind "sw a2,8(%1)" \
                     : \
                     : "r"(from + i), "r"(to + i) \
                     : "a0", "a1", "a2", "fa0", "fa1", "fa2", "fa3", "memory")
#define OPERATION(name, kind, text) \
    static void name(const Case *from, Answer *to, long count) \
    { \
        for (long i = 0; i < count; i++) \
            MAKE(kind, text); \
    }
#define ROUNDED(name, kind, text) \
    static void name(const Case *from, Answer *to, long count) \
    { \
        for (long i = 0; i < count; i++) \
            switch (from[i].field) { \
            case RNE: MAKE(kind, text ",rne"); break; \
            case RTZ: MAKE(kind, text ",rtz"); break; \
            case RDN: MAKE(kind, text ",rdn"); break; \
            case RUP: MAKE(kind, text ",rup"); break; \
            case RMM: MAKE(kind, text ",rmm"); break; \
            default: MAKE(kind, text ",dyn"); break; \
            } \
    }
#include "operations.h"
#undef OPERATION
#undef ROUNDED

#define OPERATION(name, kind, text) name,
#define ROUNDED OPERATION
static void (*const operations[])(const Case *, Answer *, long) = {
#include "operations.h"
};

static Case cases[BLOCK];
static Answer answers[BLOCK];

/* Without a library, whose start would read some of the input. */
void _start(void)
{
    uint32_t number = 0;
    long count = machine(READ, &number, sizeof number);
    while ((count = machine(READ, cases, sizeof cases) / (long)sizeof cases[0]) > 0) {
        operations[number](cases, answers, count);
        machine(WRITE, answers, count * (long)sizeof answers[0]);
    }
    machine(END, 0, 0);
}
