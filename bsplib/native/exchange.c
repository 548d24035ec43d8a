/* Carries out the requests of a superstep: all gets read, then gets land, and then puts. If two write the same byte, puts count more than
   gets, higher ranks more than lower ones, and later calls more than earlier ones, as on the nodes of the emulator. */
#include "native.h"

#include <string.h>

static size_t message_room;

/* The bytes that follow a request in its box. */
static size_t bytes_behind(const struct request *request)
{
    switch (request->kind) {
    case PUT: return rounded(request->size);
    case MESSAGE: return rounded(request->place) + rounded(request->size);
    default: return 0;
    }
}

/* The place of which a request speaks, in this rank's memory. */
static char *named_place(const struct request *request, int from)
{
    const struct area *area = &areas[request->place];
    if (request->offset + request->size > area->size)
        stop(STATUS_NOT_MET, "a %s of rank %d does not keep to its area: offset %llu + %llu bytes = %llu, but the area has %zu bytes here",
             request->kind == PUT ? "put" : "get", from, (unsigned long long)request->offset, (unsigned long long)request->size,
             (unsigned long long)(request->offset + request->size), area->size);
    return (char *)area->at + request->offset;
}

/* Lets a put land, or queues a message. */
static void land(struct request *request, int from)
{
    if (request->kind == MESSAGE) {
        messages = grown(messages, message_count, &message_room, sizeof *messages);
        messages[message_count++] = request;
    } else if (request->kind == PUT) {
        char *place = named_place(request, from);
        if (request->size > 0)
            memcpy(place, request + 1, request->size);
    }
}

/* Answers a get. */
static void answer(struct request *request, int from)
{
    if (request->kind == GET) {
        const char *place = named_place(request, from);
        void *reply = transport_append_reply(from, request->size);
        if (request->size > 0)
            memcpy(reply, place, request->size);
    }
}

/* Does something with each request that came, in the order of ranks and of calls. */
static void each(void (*does)(struct request *, int))
{
    for (int from = 0; from < transport_ranks; from++) {
        struct bytes box = transport_received(from);
        for (char *at = box.at; at < box.at + box.used;) {
            struct request *request = (struct request *)(void *)at;
            does(request, from);
            at += sizeof *request + bytes_behind(request);
        }
    }
}

static int is_any_wanted(void)
{
    for (int rank = 0; rank < transport_ranks; rank++)
        if (transport_notice(rank)->wanted > 0)
            return 1;
    return 0;
}

/* How many bytes of each rank are asked for. */
static void count_wanted(size_t *asked)
{
    memset(asked, 0, (size_t)transport_ranks * sizeof *asked);
    for (size_t at = 0; at < want_count; at++)
        asked[wants[at].from] += wants[at].size;
}

static void land_gets(void)
{
    static size_t *asked, asked_room;
    if (asked == NULL)
        asked = grown(asked, 0, &asked_room, (size_t)transport_ranks * sizeof *asked);
    each(answer);
    count_wanted(asked);
    transport_reply(asked);
    memset(asked, 0, (size_t)transport_ranks * sizeof *asked);
    for (size_t at = 0; at < want_count; at++) {
        const struct want *want = &wants[at];
        if (want->size > 0)
            memcpy(want->to, transport_replied(want->from) + asked[want->from], want->size);
        asked[want->from] += want->size;
    }
}

void exchange(void)
{
    message_count = first_message = 0;
    if (is_any_wanted())
        land_gets();
    each(land);
}
