/* Records for bsprun: files, and notes about the run. */
#include <string.h>

#include "machine.h"

/* A record is written by one call, so that it is whole wherever the node stops. */
static struct {
    char mark[sizeof bsp_settings.mark];
    unsigned size; /* of what stands behind it */
    unsigned rank;
    char bytes[MOST_RECORD_WORDS * sizeof(unsigned) + MOST_RECORD_BYTES];
} record;

void bsp_record(int kind, const unsigned *words, int count, const void *bytes, int size)
{
    int head = count * (int)sizeof *words;
    if (!(bsp_settings.flags & BSP_RECORDS))
        return;
    memcpy(record.mark, (const char *)bsp_settings.mark, sizeof record.mark);
    record.mark[sizeof record.mark - 1] = (char)kind;
    record.size = (unsigned)(sizeof record.rank + (size_t)(head + size));
    record.rank = (unsigned)machine_call_0(CALL_PID);
    memcpy(record.bytes, words, (size_t)head);
    memcpy(record.bytes + head, bytes, (size_t)size);
    bsp_stdio_flush();
    machine_call_2(CALL_WRITE, (long)&record, (long)(record.bytes - (char *)&record) + head + size);
}

void bsp_note(int what, const void *place, unsigned one, unsigned other, const char *text)
{
    const unsigned words[] = {(unsigned)what, (unsigned)bsp_superstep, (unsigned)place, one, other};
    size_t size = strlen(text);
    bsp_record(RECORD_NOTE, words, MOST_RECORD_WORDS, text, size < MOST_RECORD_BYTES ? (int)size : MOST_RECORD_BYTES);
}

void bsp_note_read(const char *function, unsigned long long number, int is_negative)
{
    static int is_told = 0;
    char text[64];
    unsigned size = (unsigned)strlen(function), at = sizeof text - 1 - size;
    if (is_told || !(bsp_settings.flags & BSP_RECORDS))
        return;
    is_told = 1;
    memcpy(text + at, function, size + 1);
    text[--at] = ' ';
    do {
        text[--at] = (char)('0' + number % 10);
        number /= 10;
    } while (number > 0);
    if (is_negative)
        text[--at] = '-';
    bsp_note(NOTE_READ, __builtin_return_address(0), 0, 0, text + at);
}
