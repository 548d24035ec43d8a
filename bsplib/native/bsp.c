/* BSPlib's functions on a host. They are those of ../include/bsp.h, with the same meanings as on the nodes of the emulator, but that time is
   that of the host, and that there are no limits but memory. */
#define _DEFAULT_SOURCE
#include "../include/bsp.h"
#include "native.h"

#include <limits.h>
#include <stdarg.h>
#include <stdio.h>
#include <stdlib.h>
#include <string.h>
#include <time.h>
#include <unistd.h>

static enum { BEFORE, WITHIN, AFTER } part = BEFORE;

/* What is wrong. */

/* A line is one write: other ranks may say something at the same time. */
static void say(const char *format, va_list arguments)
{
    char line[2 * PATH_MAX];
    size_t used = (size_t)snprintf(line, sizeof line, "bsp: rank %d: ", transport_rank);
    fflush(stdout);
    vsnprintf(line + used, sizeof line - used - 1, format, arguments);
    strcat(line, "\n");
    fwrite(line, 1, strlen(line), stderr);
    fflush(stderr);
}

void stop(int status, const char *format, ...)
{
    va_list arguments;
    va_start(arguments, format);
    say(format, arguments);
    va_end(arguments);
    transport_stop(status);
}

void stop_together(int status, const char *format, ...)
{
    va_list arguments;
    if (transport_rank != 0)
        for (;;)
            pause();
    va_start(arguments, format);
    say(format, arguments);
    va_end(arguments);
    transport_stop(status);
}

void bsp_stop(const char *text)
{
    stop(STATUS_STOPPED, "%s", text);
}

void bsp_stop_with(const char *before, int number, const char *after)
{
    stop(STATUS_STOPPED, "%s%d%s", before, number, after);
}

static void must_be_within(const char *name)
{
    if (part != WITHIN)
        stop(STATUS_STOPPED, "%s is called outside bsp_begin and bsp_end", name);
}

static void must_be_rank(const char *name, int pid)
{
    if (pid < 0 || pid >= transport_ranks)
        stop(STATUS_STOPPED, "%s: there is no rank %d: with %d processes the ranks are 0 to %d", name, pid, transport_ranks, transport_ranks - 1);
}

static size_t size_of(const char *name, int size)
{
    if (size < 0)
        stop(STATUS_STOPPED, "%s is called with a negative size: %d", name, size);
    return (size_t)size;
}

void *grown(void *array, size_t count, size_t *room, size_t size)
{
    if (count < *room)
        return array;
    *room = *room ? 2 * *room : 64;
    array = realloc(array, *room * size);
    if (array == NULL)
        stop(STATUS_STOPPED, "no memory is left for what this superstep asks for");
    return array;
}

/* Start and end. */

static void at_exit(int status, void *unused)
{
    (void)unused;
    if (part == WITHIN && status == 0)
        stop(STATUS_STOPPED, "the program ended between bsp_begin and bsp_end");
    fflush(NULL);
    meet(AT_END, status);
    transport_leave();
}

/* Behind the transport's constructor. */
__attribute__((constructor(102))) static void prepare(void)
{
    if (on_exit(at_exit, NULL) != 0)
        stop(STATUS_STOPPED, "the end of the program cannot be watched");
}

void bsp_init(void (*spmd)(void), int argc, char **argv)
{
    (void)argc;
    (void)argv;
    if (part != BEFORE)
        stop(STATUS_STOPPED, "bsp_init is called after bsp_begin");
    if (transport_rank != 0) {
        spmd();
        exit(0);
    }
}

static double seconds(void)
{
    struct timespec now;
    clock_gettime(CLOCK_MONOTONIC, &now);
    return (double)now.tv_sec + 1e-9 * (double)now.tv_nsec;
}

static double begun, last_reading;
static long supersteps;

void bsp_begin(int maxprocs)
{
    int ranks;
    if (part != BEFORE)
        stop(STATUS_STOPPED, "bsp_begin is called twice");
    meet(AT_BEGIN, maxprocs);
    ranks = transport_notice(0)->number;
    if (ranks < 1)
        stop_together(STATUS_STOPPED, "bsp_begin is called with %d processes, and takes 1 or more", ranks);
    if (ranks < transport_ranks)
        transport_keep(ranks);
    part = WITHIN;
    begun = last_reading = seconds();
}

/* What is measured where BSP_TIME is set: how long rank 0 has been within bsp_begin and bsp_end. */
static void tell_time(void)
{
    const char *wanted = getenv("BSP_TIME");
    if (transport_rank == 0 && wanted != NULL && *wanted != '\0')
        fprintf(stderr, "bsp: %d processes, %ld supersteps, %.9f s\n", transport_ranks, supersteps + 1, seconds() - begun);
}

void bsp_end(void)
{
    must_be_within("bsp_end");
    tell_time();
    part = AFTER;
}

void bsp_vabort(const char *format, va_list arguments)
{
    fflush(stdout);
    vfprintf(stderr, format, arguments);
    fflush(stderr);
    transport_stop(STATUS_STOPPED);
}

void bsp_abort(const char *format, ...)
{
    va_list arguments;
    va_start(arguments, format);
    bsp_vabort(format, arguments);
}

int bsp_nprocs(void)
{
    return transport_ranks;
}

int bsp_pid(void)
{
    return transport_rank;
}

double bsp_time(void)
{
    must_be_within("bsp_time");
    return seconds() - begun;
}

double bsp_dtime(void)
{
    double before = last_reading;
    must_be_within("bsp_dtime");
    last_reading = seconds();
    return last_reading - before;
}

/* Registration: pushes and pops change the next list, which comes into effect at the end of the superstep. */

struct area *areas;
size_t area_count;
static struct area *next_areas;
static size_t area_room, next_count, next_room;
static uint64_t registrations = 14695981039346656037u;
static int is_changed;

/* Ranks that make the same calls come to the same digest: that of FNV-1a, by words. */
static void note_registration(uint64_t call)
{
    registrations = (registrations ^ call) * 1099511628211u;
    is_changed = 1;
}

void bsp_push_reg(const void *ident, int size)
{
    must_be_within("bsp_push_reg");
    next_areas = grown(next_areas, next_count, &next_room, sizeof *next_areas);
    next_areas[next_count++] = (struct area){ident, size_of("bsp_push_reg", size)};
    note_registration(0);
}

/* The position of the last area of this address, or their count. */
static size_t found(const struct area *list, size_t count, uintptr_t ident)
{
    for (size_t at = count; at-- > 0;)
        if ((uintptr_t)list[at].at == ident)
            return at;
    return count;
}

void bsp_pop_reg(const void *ident)
{
    size_t at;
    must_be_within("bsp_pop_reg");
    at = found(next_areas, next_count, (uintptr_t)ident);
    if (at == next_count)
        stop(STATUS_STOPPED, "bsp_pop_reg: no area is registered at %p", ident);
    next_count--;
    memmove(next_areas + at, next_areas + at + 1, (next_count - at) * sizeof *next_areas);
    note_registration(at + 1);
}

void bsp_pushregister(const void *ident, int size)
{
    bsp_push_reg(ident, size);
}

void bsp_popregister(const void *ident)
{
    bsp_pop_reg(ident);
}

static void turn_areas(void)
{
    if (!is_changed)
        return;
    is_changed = 0;
    while (area_room < next_count)
        areas = grown(areas, area_room, &area_room, sizeof *areas);
    area_count = next_count;
    if (area_count > 0)
        memcpy(areas, next_areas, area_count * sizeof *areas);
}

/* Direct remote memory access. */

static void *ask(int pid, struct request request, size_t bytes)
{
    struct request *at = transport_append(pid, sizeof request + bytes);
    *at = request;
    return at + 1;
}

/* The position of the area that an address of this rank names. */
static uint32_t place_of(const char *name, uintptr_t ident)
{
    size_t at = found(areas, area_count, ident);
    if (at == area_count)
        stop(STATUS_STOPPED, "%s: no area is registered at %#zx: a registration is in effect after the next bsp_sync", name, (size_t)ident);
    return (uint32_t)at;
}

static uint64_t offset_of(const char *name, int offset)
{
    if (offset < 0)
        stop(STATUS_NOT_MET, "%s is called with a negative offset: %d", name, offset);
    return (uint64_t)offset;
}

static void put(const char *name, int pid, const void *src, uintptr_t dst, int offset, int nbytes)
{
    size_t size = size_of(name, nbytes);
    void *to;
    must_be_within(name);
    must_be_rank(name, pid);
    to = ask(pid, (struct request){PUT, place_of(name, dst), offset_of(name, offset), size}, rounded(size));
    if (size > 0)
        memcpy(to, src, size);
}

struct want *wants;
size_t want_count;
static size_t want_room;
static uint64_t wanted;

static void get(const char *name, int pid, uintptr_t src, int offset, void *dst, int nbytes)
{
    size_t size = size_of(name, nbytes);
    must_be_within(name);
    must_be_rank(name, pid);
    ask(pid, (struct request){GET, place_of(name, src), offset_of(name, offset), size}, 0);
    wants = grown(wants, want_count, &want_room, sizeof *wants);
    wants[want_count++] = (struct want){dst, size, pid};
    wanted += size + 1;
}

void bsp_put(int pid, const void *src, void *dst, int offset, int nbytes)
{
    put("bsp_put", pid, src, (uintptr_t)dst, offset, nbytes);
}

void bsp_hpput(int pid, const void *src, void *dst, int offset, int nbytes)
{
    put("bsp_hpput", pid, src, (uintptr_t)dst, offset, nbytes);
}

void bsp_get(int pid, const void *src, int offset, void *dst, int nbytes)
{
    get("bsp_get", pid, (uintptr_t)src, offset, dst, nbytes);
}

void bsp_hpget(int pid, const void *src, int offset, void *dst, int nbytes)
{
    get("bsp_hpget", pid, (uintptr_t)src, offset, dst, nbytes);
}

/* Messages. */

static int tag_size, next_tag_size;
struct request **messages;
size_t message_count, first_message;

void bsp_set_tagsize(bsp_number tag_nbytes)
{
    must_be_within("bsp_set_tagsize");
    next_tag_size = (int)size_of("bsp_set_tagsize", *tag_nbytes.with_sign);
    *tag_nbytes.with_sign = tag_size;
}

void bsp_send(int pid, const void *tag, const void *payload, int payload_nbytes)
{
    size_t size = size_of("bsp_send", payload_nbytes), tag_bytes = (size_t)tag_size;
    char *to;
    must_be_within("bsp_send");
    must_be_rank("bsp_send", pid);
    to = ask(pid, (struct request){MESSAGE, (uint32_t)tag_size, 0, size}, rounded(tag_bytes) + rounded(size));
    if (tag_bytes > 0)
        memcpy(to, tag, tag_bytes);
    if (size > 0)
        memcpy(to + rounded(tag_bytes), payload, size);
}

void bsp_hpsend(int pid, const void *tag, const void *payload, int payload_nbytes)
{
    bsp_send(pid, tag, payload, payload_nbytes);
}

/* The first message that is left, or NULL. */
static struct request *first(void)
{
    return first_message < message_count ? messages[first_message] : NULL;
}

static char *tag_of(struct request *message)
{
    return (char *)(message + 1);
}

static char *payload_of(struct request *message)
{
    return tag_of(message) + rounded(message->place);
}

void bsp_qsize(bsp_number nmessages, bsp_number accum_nbytes)
{
    uint64_t bytes = 0;
    must_be_within("bsp_qsize");
    if (nmessages.with_sign != NULL)
        *nmessages.with_sign = (int)(message_count - first_message);
    if (accum_nbytes.with_sign == NULL)
        return;
    for (size_t at = first_message; at < message_count; at++)
        bytes += messages[at]->size;
    *accum_nbytes.without_sign = bytes < UINT_MAX ? (unsigned)bytes : UINT_MAX;
}

void bsp_get_tag(bsp_number status, void *tag)
{
    struct request *message = first();
    must_be_within("bsp_get_tag");
    *status.with_sign = message == NULL ? -1 : (int)message->size;
    if (message != NULL && message->place > 0)
        memcpy(tag, tag_of(message), message->place);
}

void bsp_move(void *payload, int reception_nbytes)
{
    struct request *message = first();
    size_t size = size_of("bsp_move", reception_nbytes);
    must_be_within("bsp_move");
    if (message == NULL)
        return;
    if (size > message->size)
        size = message->size;
    if (size > 0)
        memcpy(payload, payload_of(message), size);
    first_message++;
}

int bsp_hpmove(void **tag_ptr, void **payload_ptr)
{
    struct request *message = first();
    must_be_within("bsp_hpmove");
    if (message == NULL)
        return -1;
    *tag_ptr = tag_of(message);
    *payload_ptr = payload_of(message);
    first_message++;
    return (int)message->size;
}

/* The end of a superstep. */

/* Not all ranks are at the same meeting. One that has ended with a status has said why. */
static _Noreturn void end_apart(int other)
{
    static const char *const where[] = {"waits in bsp_begin", "waits in bsp_sync", "has ended"};
    for (int rank = 0; rank < transport_ranks; rank++) {
        const struct notice *notice = transport_notice(rank);
        if (notice->meeting == AT_END && notice->number != 0)
            transport_stop(notice->number);
    }
    stop_together(STATUS_NOT_MET, "rank 0 %s, and rank %d %s", where[transport_notice(0)->meeting], other, where[transport_notice(other)->meeting]);
}

void meet(enum meeting meeting, int number)
{
    const struct notice own = {(int32_t)meeting, number, registrations, wanted, output_end(meeting == AT_END)};
    transport_meet(&own);
    for (int rank = 1; rank < transport_ranks; rank++)
        if (transport_notice(rank)->meeting != transport_notice(0)->meeting)
            end_apart(rank);
}

static void must_agree(void)
{
    const struct notice *zero = transport_notice(0);
    for (int rank = 1; rank < transport_ranks; rank++)
        if (transport_notice(rank)->number != zero->number)
            stop_together(STATUS_NOT_MET, "rank %d set the tag size %d, and rank 0 %d", rank, transport_notice(rank)->number, zero->number);
    for (int rank = 1; rank < transport_ranks; rank++)
        if (transport_notice(rank)->registrations != zero->registrations)
            stop_together(STATUS_NOT_MET, "rank %d did not register the same as rank 0", rank);
}

void bsp_sync(void)
{
    must_be_within("bsp_sync");
    meet(AT_SYNC, next_tag_size);
    must_agree();
    exchange();
    turn_areas();
    want_count = 0;
    wanted = 0;
    tag_size = next_tag_size;
    supersteps++;
}
