/* Streams over files, instead of picolibc's. There an error of a stream is not told, and a byte above 127 is one; the place after
   ungetc and after a seek in a file that is added to is a wrong one. */
#include <errno.h>
#include <fcntl.h>
#include <limits.h>
#include <stdio-bufio.h>
#include <stdio.h>
#include <stdlib.h>
#include <string.h>
#include <unistd.h>

#include "files.h"

/* The stream as picolibc has it. Its `dir` says what its buffer holds: with __SRD bytes of the file, of which those from `off` on were not
   taken yet; with __SWR bytes that are to be written; with 0 nothing. The place in the file is that of the open file. */
static struct __file_bufio *buffered(FILE *file)
{
    return (struct __file_bufio *)file;
}

static int fail(FILE *file)
{
    file->flags |= __SERR;
    return _FDEV_ERR;
}

/* What cannot be written is lost, as the stream's error tells. */
static int write_out(struct __file_bufio *it)
{
    const char *from = it->buf;
    size_t left = (size_t)it->len;
    it->len = 0;
    while (left > 0) {
        ssize_t count = write(it->fd, from, left);
        if (count <= 0)
            return fail(&it->xfile.cfile.file);
        from += count;
        left -= (size_t)count;
    }
    return 0;
}

/* Goes back in the file to the first byte that was not taken. An input that cannot go back keeps its bytes. */
static int drop_read(struct __file_bufio *it)
{
    if (it->off < it->len && lseek(it->fd, it->off - it->len, SEEK_CUR) < 0)
        return 0;
    it->off = it->len = 0;
    return 0;
}

static int flush(FILE *file)
{
    struct __file_bufio *it = buffered(file);
    return it->dir == __SWR ? write_out(it) : drop_read(it);
}

/* Turns a stream to reading or to writing. */
static int turn(FILE *file, uint8_t way)
{
    struct __file_bufio *it = buffered(file);
    int status = flush(file);
    it->dir = way;
    it->off = it->len = 0;
    file->unget = 0;
    return status;
}

static int put(char byte, FILE *file)
{
    struct __file_bufio *it = buffered(file);
    if (it->dir != __SWR && turn(file, __SWR) < 0)
        return _FDEV_ERR;
    it->buf[it->len++] = byte;
    return it->len >= it->size || (byte == '\n' && (it->bflags & __BLBF) != 0) ? write_out(it) : 0;
}

static int get(FILE *file)
{
    struct __file_bufio *it = buffered(file);
    if ((file->flags & __SEOF) != 0)
        return _FDEV_EOF;
    if (it->dir != __SRD && turn(file, __SRD) < 0)
        return _FDEV_ERR;
    if (it->off == it->len) {
        ssize_t count = read(it->fd, it->buf, (size_t)it->size);
        it->off = 0;
        it->len = count > 0 ? (int)count : 0;
        if (count <= 0)
            return count < 0 ? _FDEV_ERR : _FDEV_EOF;
    }
    return (unsigned char)it->buf[it->off++];
}

/* The place of the next byte in the file. What is held back is written first: a file that is added to has it at its end. */
static off_t place_of(struct __file_bufio *it)
{
    off_t place;
    if (it->dir == __SWR && write_out(it) < 0)
        return -1;
    place = lseek(it->fd, 0, SEEK_CUR);
    return place < 0 ? place : place - (it->len - it->off);
}

static off_t go_back(struct __file_bufio *it, off_t byte)
{
    if (it->dir != __SRD || it->off == 0 || (unsigned char)it->buf[it->off - 1] != byte)
        return -1;
    return --it->off;
}

static off_t go_to(struct __file_bufio *it, off_t offset, int whence)
{
    off_t place = place_of(it), first = place - it->off;
    if (place < 0 || (whence == SEEK_CUR && offset == 0))
        return place;
    if (whence == SEEK_CUR) {
        if (__builtin_add_overflow(offset, place, &offset)) {
            errno = EOVERFLOW;
            return -1;
        }
        whence = SEEK_SET;
    }
    if (whence == SEEK_SET && it->dir == __SRD && offset >= first && offset <= first + it->len) {
        it->off = (int)(offset - first);
        return offset;
    }
    place = lseek(it->fd, offset, whence);
    if (place >= 0) {
        it->off = it->len = 0;
        it->dir = 0;
    }
    return place;
}

static off_t seek(FILE *file, off_t offset, int whence)
{
    return whence == BSP_BACK ? go_back(buffered(file), offset) : go_to(buffered(file), offset, whence);
}

/* A stream keeps its own buffer where it is given none. */
static int set_buffer(FILE *file, char *buffer, int mode, size_t size)
{
    struct __file_bufio *it = buffered(file);
    if (mode != _IOFBF && mode != _IOLBF && mode != _IONBF)
        return -1;
    turn(file, 0);
    if (mode == _IONBF)
        it->size = 1;
    else if (buffer != NULL && size > 0 && size <= INT_MAX) {
        it->buf = buffer;
        it->size = (int)size;
    }
    it->bflags = mode == _IOLBF ? __BLBF : 0;
    return 0;
}

static int close_stream(FILE *file)
{
    int status = flush(file);
    if (close(buffered(file)->fd) < 0)
        status = EOF;
    free(file);
    return status < 0 ? EOF : 0;
}

/* The flags of open for a mode of fopen, or -1. */
static int flags_of(const char *mode)
{
    int flags = *mode == 'r' ? O_RDONLY : *mode == 'w' ? O_WRONLY | O_CREAT | O_TRUNC : *mode == 'a' ? O_WRONLY | O_CREAT | O_APPEND : -1;
    if (flags >= 0 && strchr(mode, '+') != NULL)
        flags = (flags & ~O_ACCMODE) | O_RDWR;
    return flags >= 0 && strchr(mode, 'x') != NULL ? flags | O_EXCL : flags;
}

static void flush_files(void)
{
    enum { FIRST = 3 };
    for (int i = FIRST; bsp_is_number(i); i++) {
        const struct bsp_open *open = bsp_open_of(i);
        if (open != NULL && open->stream != NULL && buffered(open->stream)->dir == __SWR)
            fflush(open->stream);
    }
}

/* A stream over an open file, which is closed where there is none. One that is only added to begins at its end. picolibc's functions put
   to a stream that is read alone, and get from one that is written alone, by functions that refuse it. */
static FILE *stream_over(int number, int flags)
{
    enum { ROOM = 1024 };
    struct bsp_open *open = bsp_open_of(number);
    struct __file_bufio *stream;
    int way = flags & O_ACCMODE;
    if (number < 0)
        return NULL;
    stream = calloc(1, sizeof *stream + ROOM);
    if (stream == NULL) {
        close(number);
        return NULL;
    }
    stream->xfile = (struct __file_ext)FDEV_SETUP_EXT(
        way == O_RDONLY ? bsp_put_refused : put, way == O_WRONLY ? bsp_get_refused : get, flush, close_stream, seek, set_buffer,
        _FDEV_SETUP_RW | __SBUF);
    stream->fd = number;
    stream->buf = (char *)(stream + 1);
    stream->size = ROOM;
    if ((flags & O_APPEND) != 0 && way == O_WRONLY)
        lseek(number, 0, SEEK_END);
    if (open != NULL)
        open->stream = &stream->xfile.cfile.file;
    bsp_flush_files = flush_files;
    return &stream->xfile.cfile.file;
}

FILE *fopen(const char *name, const char *mode)
{
    int flags = flags_of(mode);
    if (flags < 0) {
        errno = EINVAL;
        return NULL;
    }
    return stream_over(open(name, flags, 0666), flags);
}

FILE *fdopen(int number, const char *mode)
{
    int flags = flags_of(mode);
    if (flags < 0 || (number > 2 && bsp_open_of(number) == NULL)) {
        errno = flags < 0 ? EINVAL : EBADF;
        return NULL;
    }
    return stream_over(number, flags);
}

FILE *tmpfile(void)
{
    return stream_over(bsp_open_nameless(), O_RDWR);
}

/* Another file for a stream, which keeps its address. The old one is closed whatever comes of the new one. */
FILE *bsp_reopen_buffered(const char *name, const char *mode, FILE *file)
{
    struct __file_bufio *old = buffered(file), *new;
    struct bsp_open *open;
    turn(file, 0);
    close(old->fd);
    new = name == NULL ? NULL : buffered(fopen(name, mode));
    if (new == NULL) {
        free(old);
        return NULL;
    }
    open = bsp_open_of(new->fd);
    new->buf = old->buf;
    new->size = old->size;
    new->bflags = old->bflags;
    *old = *new;
    if (open != NULL)
        open->stream = file;
    free(new);
    return file;
}
