/* The standard streams, which picolibc leaves to the system, and functions of its streams that do not know them. */
#include <errno.h>
#include <limits.h>
#include <stdio-bufio.h>
#include <stdio.h>
#include <string.h>
#include <unistd.h>

#include "files.h"

static int fail(FILE *file)
{
    file->flags |= __SERR;
    return _FDEV_ERR;
}

/* What picolibc calls for a stream that is read alone, and for one that is written alone. It would tell neither ferror nor errno. */
int bsp_put_refused(char byte, FILE *file)
{
    (void)byte;
    errno = EBADF;
    return fail(file);
}

int bsp_get_refused(FILE *file)
{
    errno = EBADF;
    return fail(file);
}

static int put(char byte, FILE *file)
{
    (void)file;
    return bsp_stdio_put(byte);
}

static int put_error(char byte, FILE *file)
{
    (void)file;
    return bsp_error_put(byte);
}

/* A node reads its input once, from the first byte on. A program that goes back in it, or asks for a place in it, has the whole of it in
   its memory. The address of this name is 1 where the program was linked with a function that does so, and else 0: the linker tells by the
   room of `goes_back`, which such functions name. */
extern char bsp_goes_back[] __attribute__((weak));
static char goes_back __attribute__((section(".bss.bsp_goes_back")));

static void say_it_goes_back(void)
{
    (void)*(volatile char *)&goes_back;
}

static struct {
    char *bytes;
    long next, end;
} whole;

static void read_whole(void)
{
    enum { PART = 4096 };
    int count;
    whole.bytes = sbrk(0);
    do {
        if (sbrk(PART) == (void *)-1)
            bsp_stop("the input does not fit the memory, where fseek and rewind want it whole: give --memory");
        count = bsp_input_read(whole.bytes + whole.end, PART);
        whole.end += count;
    } while (count == PART);
}

static int get(FILE *file)
{
    int byte;
    if (bsp_goes_back == NULL) {
        byte = bsp_stdio_get();
    } else {
        if (whole.bytes == NULL)
            read_whole();
        byte = whole.next >= whole.end ? -1 : (unsigned char)whole.bytes[whole.next++];
    }
    if (byte >= 0)
        return byte;
    bsp_ended_input = file;
    return _FDEV_EOF;
}

static off_t go_back(off_t byte)
{
    if (bsp_goes_back == NULL)
        return bsp_stdio_go_back((int)byte);
    return whole.next > 0 && whole.next <= whole.end && (unsigned char)whole.bytes[whole.next - 1] == byte ? --whole.next : -1;
}

static off_t seek(FILE *file, off_t offset, int whence)
{
    off_t from;
    (void)file;
    if (whence == BSP_BACK)
        return go_back(offset);
    if (whole.bytes == NULL)
        read_whole();
    from = whence == SEEK_SET ? 0 : whence == SEEK_CUR ? whole.next : whole.end;
    /* As of a file, a place behind its end is one too. */
    if (offset < -from || offset > LONG_MAX - from) {
        errno = EINVAL;
        return -1;
    }
    whole.next = from + offset;
    return whole.next;
}

static int flush(FILE *file)
{
    (void)file;
    bsp_stdio_flush();
    return 0;
}

static int keep_open(FILE *file)
{
    (void)file;
    return 0;
}

static struct __file_ext input = FDEV_SETUP_EXT(bsp_put_refused, get, NULL, keep_open, seek, NULL, _FDEV_SETUP_RW);
static FILE output = FDEV_SETUP_STREAM(put, bsp_get_refused, flush, _FDEV_SETUP_RW);
static FILE errors = FDEV_SETUP_STREAM(put_error, bsp_get_refused, flush, _FDEV_SETUP_RW);

FILE *const stdin = &input.cfile.file;
FILE *const stdout = &output;
FILE *const stderr = &errors;

/* In the place of picolibc's, which loses a last line that no line feed ends. */
char *fgets(char *to, int size, FILE *file)
{
    int count = 0, byte = 0;
    while (count < size - 1 && byte != '\n') {
        byte = getc(file);
        if (byte == EOF)
            break;
        to[count++] = (char)byte;
    }
    if (size <= 0 || (byte == EOF && count == 0))
        return NULL;
    to[count] = '\0';
    return to;
}

/* What freopen has put in the place of the standard streams, which stay where they are. */
static FILE *instead_of_input, *instead_of_output;

/* An end is told by the standard stream alone, so that clearerr of it counts. */
static int get_instead(FILE *file)
{
    int byte = getc(instead_of_input), is_bad = ferror(instead_of_input);
    (void)file;
    if (byte != EOF)
        return byte;
    clearerr(instead_of_input);
    return is_bad ? _FDEV_ERR : _FDEV_EOF;
}

static off_t seek_instead(FILE *file, off_t offset, int whence)
{
    (void)file;
    if (whence == BSP_BACK)
        return ((const struct __file_ext *)instead_of_input)->seek(instead_of_input, offset, whence);
    return fseeko(instead_of_input, offset, whence) == 0 ? ftello(instead_of_input) : -1;
}

static int put_instead(char byte, FILE *file)
{
    return putc((unsigned char)byte, instead_of_output) == EOF ? fail(file) : 0;
}

static int flush_instead(FILE *file)
{
    (void)file;
    return fflush(instead_of_output);
}

FILE *freopen(const char *name, const char *mode, FILE *file)
{
    FILE *stream;
    fflush(file);
    if (file->flags & __SBUF)
        return bsp_reopen_buffered(name, mode, file);
    stream = name == NULL ? NULL : fopen(name, mode);
    if (stream == NULL)
        return NULL;
    file->unget = 0;
    clearerr(file);
    if (file == stdin) {
        if (instead_of_input != NULL)
            fclose(instead_of_input);
        instead_of_input = stream;
        bsp_has_input = 1;
        file->get = get_instead;
        input.seek = seek_instead;
    } else {
        instead_of_output = stream;
        file->put = put_instead;
        file->flush = flush_instead;
    }
    return file;
}

/* picolibc's takes a buffer of no bytes where it is given none, and a standard stream has its own. */
int setvbuf(FILE *file, char *buffer, int mode, size_t size)
{
    const struct __file_ext *stream = (const struct __file_ext *)file;
    if (!(file->flags & __SBUF))
        return mode == _IOFBF || mode == _IOLBF || mode == _IONBF ? 0 : -1;
    return stream->setvbuf(file, buffer, mode, size);
}

/* picolibc's do nothing for NULL, and know no standard streams. */
int fflush(FILE *file)
{
    if (file != NULL)
        return file->flush == NULL ? 0 : file->flush(file);
    if (bsp_flush_files != NULL)
        bsp_flush_files();
    bsp_stdio_flush();
    return 0;
}

/* Places in a stream: picolibc's know nothing of a byte that was put back, and of an origin that there is not. */

/* How a stream seeks, or NULL with a reason. */
static off_t (*seeker_of(const FILE *file))(FILE *, off_t, int)
{
    const struct __file_ext *stream = (const struct __file_ext *)file;
    if ((file->flags & __SEXT) != 0 && stream->seek != NULL)
        return stream->seek;
    errno = ESPIPE;
    return NULL;
}

off_t ftello(FILE *file)
{
    off_t (*how)(FILE *, off_t, int) = seeker_of(file);
    off_t place = how == NULL ? -1 : how(file, 0, SEEK_CUR);
    say_it_goes_back();
    return place > 0 && file->unget != 0 ? place - 1 : place;
}

int fseeko(FILE *file, off_t offset, int whence)
{
    off_t (*how)(FILE *, off_t, int) = seeker_of(file);
    say_it_goes_back();
    if (whence != SEEK_SET && whence != SEEK_CUR && whence != SEEK_END) {
        errno = EINVAL;
        return -1;
    }
    if (whence == SEEK_CUR && file->unget != 0 && offset > LONG_MIN)
        offset--;
    if (how == NULL || how(file, offset, whence) < 0)
        return -1;
    file->unget = 0;
    file->flags &= (uint8_t)~__SEOF;
    return 0;
}

long ftell(FILE *file)
{
    return ftello(file);
}

int fseek(FILE *file, long offset, int whence)
{
    return fseeko(file, offset, whence);
}

int fgetpos(FILE *file, fpos_t *to)
{
    *to = ftello(file);
    return *to < 0 ? -1 : 0;
}

int fsetpos(FILE *file, fpos_t *to)
{
    return fseeko(file, (off_t)*to, SEEK_SET);
}

int fileno(FILE *file)
{
    if (file->flags & __SBUF)
        return ((struct __file_bufio *)file)->fd;
    return file == stdin ? 0 : file == stdout ? 1 : 2;
}
