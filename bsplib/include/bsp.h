/* BSPlib (Hill and others, 1998) for the nodes of bspemu.
 *
 * Names, types and meanings are BSPlib's. What differs, and what BSPlib leaves open:
 *
 * - Each of the p nodes that --nodes gives starts the program by itself. So bsp_begin starts no processes: all p nodes
 *   take part, and where p is above maxprocs the run is aborted with a line that says which -n to give; bsprun then
 *   gives as many by itself. After bsp_init the maxprocs of rank 0 alone is looked at. bsp_nprocs and bsp_pid can be called anywhere.
 * - What stands before bsp_begin and after bsp_end is run by every node, unless bsp_init was called: then rank 0 alone
 *   returns from it, and every other rank calls spmd and ends.
 * - bsp_end does not end the node; main has to return 0, or call exit(0). What was asked for after the last bsp_sync
 *   does not come about, and the messages left in the queue are gone.
 * - An area is named by its address. Each rank has to make the same pushes and pops, in the same order, between two
 *   calls of bsp_sync; bsp_push_reg(NULL, 0) registers an area of no bytes.
 * - bsp_hpput and bsp_hpget copy as bsp_put and bsp_get do, at the same times.
 * - bsp_hpmove copies too, into a buffer of this library which it takes from malloc. What it gave can be read and
 *   written until the next bsp_sync.
 * - bsp_abort stops its own node; the others run on to the end of the superstep, in which the run is then stopped.
 * - bsp_time is no time of a host: it tells what the supersteps before have cost by the model, w + g h + l each, and then how many
 *   instructions this rank has made in this one, over a rate of instructions a second. bsprun has --g, --l and --rate. Where the
 *   nodes have no clock, as under bspemu run alone, it answers 0, and later times from the 33rd reading on.
 * - bsp_hpsend copies as bsp_send does. bsp_pushregister, bsp_popregister and bsp_dtime are the Oxford toolset's names.
 * - Counts and sizes may be size_t where BSPlib has int: bsp_qsize, bsp_get_tag and bsp_set_tagsize take pointers to both.
 * - A negative size is refused: bsp_move aborts, bsp_set_tagsize stops the node with fault BadSize, and every other
 *   call with fault RangeOutside. A rank that there is not is fault BadRank, and an area that was not registered when
 *   the superstep began is fault NotRegistered. A put or a get that passes the end of its area, or whose offset is
 *   negative, is refused by the exchange: OutsideArea.
 * - A call outside bsp_begin and bsp_end aborts with a line that says so. So does a program that ends between them.
 * - bsp_sync, and the end of the program, look at the bytes at address 0 and at those before the first variable, where
 *   nothing has its place: one that was written aborts with a line that says so.
 *
 * Broadcasts, reductions and the like, which BSPlib builds of these, are in bsp_level1.h.
 */
#ifndef BSP_H
#define BSP_H

#pragma GCC system_header

#include <stdarg.h>

/* What a function does with memory, so that the compiler warns of bytes that are not there, or were not written. The memory of an area is
   named and not read, which older compilers cannot be told. */
#if defined __GNUC__ && __GNUC__ >= 11
#define BSP_NAMES(pointer) __attribute__((access(none, pointer)))
#define BSP_READS(pointer, size) __attribute__((access(read_only, pointer, size)))
#define BSP_WRITES(pointer, size) __attribute__((access(write_only, pointer, size)))
#else
#define BSP_NAMES(pointer)
#define BSP_READS(pointer, size)
#define BSP_WRITES(pointer, size)
#endif

/* What other headers of BSPlib call the types of ranks, of their number and of sizes. */
typedef int bsp_pid_t;
typedef int bsp_nprocs_t;
typedef int bsp_size_t;

#ifdef __cplusplus
extern "C" {
#endif

/* Start and end. */
void bsp_init(void (*spmd)(void), int argc, char **argv);
void bsp_begin(int maxprocs);
void bsp_end(void);
__attribute__((noreturn, format(printf, 1, 2))) void bsp_abort(const char *format, ...);
__attribute__((noreturn, format(printf, 1, 0))) void bsp_vabort(const char *format, va_list arguments);

/* Where am I? */
int bsp_nprocs(void);
int bsp_pid(void);

/* The end of a superstep. */
void bsp_sync(void);

/* Registration, in effect from the next superstep on. */
BSP_NAMES(1) void bsp_push_reg(const void *ident, int size);
BSP_NAMES(1) void bsp_pop_reg(const void *ident);
BSP_NAMES(1) void bsp_pushregister(const void *ident, int size);
BSP_NAMES(1) void bsp_popregister(const void *ident);

/* Direct remote memory access. */
BSP_READS(2, 5) BSP_NAMES(3) void bsp_put(int pid, const void *src, void *dst, int offset, int nbytes);
BSP_READS(2, 5) BSP_NAMES(3) void bsp_hpput(int pid, const void *src, void *dst, int offset, int nbytes);
BSP_NAMES(2) BSP_WRITES(4, 5) void bsp_get(int pid, const void *src, int offset, void *dst, int nbytes);
BSP_NAMES(2) BSP_WRITES(4, 5) void bsp_hpget(int pid, const void *src, int offset, void *dst, int nbytes);
/* Of MulticoreBSP. A node reads no other's memory within a superstep: of another rank it stops the node with a line. */
void bsp_direct_get(int pid, const void *src, int offset, void *dst, int nbytes);

/* A pointer to a whole number of 32 bits, of whichever type. */
#ifdef __cplusplus
typedef int *bsp_number;
#else
typedef union {
    int *with_sign;
    unsigned *without_sign;
#if __SIZEOF_LONG__ == 4 /* not on a host, for which native/ has this library */
    long *long_with_sign;
    unsigned long *long_without_sign;
#endif
} bsp_number __attribute__((transparent_union));
#endif

/* Messages. bsp_set_tagsize leaves the size in effect in *tag_nbytes. Either pointer of bsp_qsize may be NULL. */
void bsp_set_tagsize(bsp_number tag_nbytes);
BSP_READS(3, 4) void bsp_send(int pid, const void *tag, const void *payload, int payload_nbytes);
BSP_READS(3, 4) void bsp_hpsend(int pid, const void *tag, const void *payload, int payload_nbytes);
void bsp_qsize(bsp_number nmessages, bsp_number accum_nbytes);
void bsp_get_tag(bsp_number status, void *tag);
BSP_WRITES(1, 2) void bsp_move(void *payload, int reception_nbytes);
int bsp_hpmove(void **tag_ptr, void **payload_ptr);

/* Seconds of the model: what the run has cost so far, in ticks, over a rate; and since the last call. */
double bsp_time(void);
double bsp_dtime(void);

#undef BSP_NAMES
#undef BSP_READS
#undef BSP_WRITES

#ifdef __cplusplus
}

/* The same with pointers to other whole numbers of 32 bits, and NULL in the place of one. Programs include this within extern "C" too. */
extern "C++" {
#if __cplusplus >= 201103L
#define BSP_HAS_32_BITS(Number) static_assert(BSP_IS_NUMBER(Number), "this has to point to a whole number of 32 bits")
#else
#define BSP_HAS_32_BITS(Number) typedef char this_has_to_point_to_a_whole_number_of_32_bits[BSP_IS_NUMBER(Number) ? 1 : -1]
#endif
#define BSP_IS_NUMBER(Number) (sizeof(Number) == sizeof(int) && Number(1) / 2 == 0)
template <class Number> inline int *bsp_number_at(Number *at)
{
    BSP_HAS_32_BITS(Number);
    return reinterpret_cast<int *>(at);
}
#undef BSP_HAS_32_BITS
#undef BSP_IS_NUMBER
template <class Number> inline void bsp_set_tagsize(Number *tag_nbytes) { bsp_set_tagsize(bsp_number_at(tag_nbytes)); }
template <class Number> inline void bsp_get_tag(Number *status, void *tag) { bsp_get_tag(bsp_number_at(status), tag); }
template <class Number> inline void bsp_qsize(Number *nmessages, int *accum_nbytes) { bsp_qsize(bsp_number_at(nmessages), accum_nbytes); }
template <class Number> inline void bsp_qsize(int *nmessages, Number *accum_nbytes) { bsp_qsize(nmessages, bsp_number_at(accum_nbytes)); }
template <class Number, class Other> inline void bsp_qsize(Number *nmessages, Other *accum_nbytes)
{
    bsp_qsize(bsp_number_at(nmessages), bsp_number_at(accum_nbytes));
}
}
#endif

#endif
