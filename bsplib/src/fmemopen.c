/* Streams over memory of the program, instead of picolibc's. There a stream that is added to begins anew, and what does not fit is no
   error. */
#include <errno.h>
#include <stdio.h>
#include <stdlib.h>
#include <string.h>

#include "files.h"

struct memory {
    struct __file_ext head;
    char *bytes;
    size_t room, size, next;
    int is_added_to, is_own, is_written_alone;
};

static struct memory *memory(FILE *file)
{
    return (struct memory *)file;
}

/* A zero follows what was written, where there is room for it. */
static int put(char byte, FILE *file)
{
    struct memory *it = memory(file);
    if (it->is_added_to)
        it->next = it->size;
    if (it->next == it->room) {
        errno = ENOSPC;
        file->flags |= __SERR;
        return _FDEV_ERR;
    }
    it->bytes[it->next++] = byte;
    if (it->next > it->size) {
        it->size = it->next;
        if (it->size < it->room)
            it->bytes[it->size] = '\0';
    }
    return 0;
}

static int get(FILE *file)
{
    struct memory *it = memory(file);
    return it->next < it->size ? (unsigned char)it->bytes[it->next++] : _FDEV_EOF;
}

/* The text of a stream that is written alone ends within the memory, also where it would fill all of it. */
static int flush(FILE *file)
{
    const struct memory *it = memory(file);
    if (it->is_written_alone)
        it->bytes[it->size < it->room ? it->size : it->room - 1] = '\0';
    return 0;
}

static off_t seek(FILE *file, off_t offset, int whence)
{
    struct memory *it = memory(file);
    if (whence == BSP_BACK)
        return it->next > 0 && (unsigned char)it->bytes[it->next - 1] == offset ? (off_t)--it->next : -1;
    off_t from = whence == SEEK_SET ? 0 : (off_t)(whence == SEEK_CUR ? it->next : it->size);
    if (offset < -from || offset > (off_t)it->room - from) {
        errno = EINVAL;
        return -1;
    }
    it->next = (size_t)(from + offset);
    return from + offset;
}

static int close_memory(FILE *file)
{
    flush(file);
    if (memory(file)->is_own)
        free(memory(file)->bytes);
    free(file);
    return 0;
}

FILE *fmemopen(void *bytes, size_t size, const char *mode)
{
    int is_both = strchr(mode, '+') != NULL, is_read = *mode == 'r' || is_both, is_written = *mode != 'r' || is_both;
    struct memory *it = NULL;
    if (size == 0 || size > INT32_MAX || *mode == '\0' || strchr("rwa", *mode) == NULL)
        errno = EINVAL;
    else
        it = calloc(1, sizeof *it);
    if (it == NULL)
        return NULL;
    it->bytes = bytes != NULL ? bytes : calloc(1, size);
    if (it->bytes == NULL) {
        free(it);
        return NULL;
    }
    it->head = (struct __file_ext)FDEV_SETUP_EXT(
        is_written ? put : bsp_put_refused, is_read ? get : bsp_get_refused, flush, close_memory, seek, NULL, _FDEV_SETUP_RW);
    it->room = size;
    it->is_own = bytes == NULL;
    it->is_added_to = *mode == 'a';
    it->is_written_alone = !is_read;
    if (*mode == 'w' && is_both)
        it->bytes[0] = '\0';
    it->size = *mode == 'r' ? size : *mode == 'a' ? strnlen(it->bytes, size) : 0;
    it->next = *mode == 'a' ? it->size : 0;
    return &it->head.cfile.file;
}
