/* Files, which bsprun gives and takes, and times, of which there are none: what POSIX has below the streams of a C library, and
   picolibc leaves to a system. All of it is weak, since a program may have functions of these names. */
#include <errno.h>
#include <fcntl.h>
#include <stdarg.h>
#include <stdio.h>
#include <stdlib.h>
#include <string.h>
#include <sys/stat.h>
#include <sys/time.h>
#include <sys/types.h>
#include <time.h>
#include <unistd.h>

#include "files.h"

#define WEAK __attribute__((weak))

/* 0 to 2 are the standard streams, and those from 3 on open files. */
enum { FIRST_FILE = 3, MOST_FILES = 64 };
static struct bsp_open opened[MOST_FILES];

/* The places in a file are numbers of the type off_t. */
enum { MOST_BYTES = 0x7fffffff };

static struct bsp_file *files = NULL;
static unsigned number_of_files = 0;

/* What a device answers: nothing is read from one that is written, and nothing is kept. */
static struct bsp_file input = {.name = "/dev/stdin", .device = DEVICE_INPUT}, output = {.name = "/dev/stdout", .device = DEVICE_OUTPUT};
static struct bsp_file errors = {.name = "/dev/stderr", .device = DEVICE_ERROR}, nothing = {.name = "/dev/null", .device = DEVICE_NULL};
static struct bsp_file random_bytes = {.name = "/dev/urandom", .device = DEVICE_RANDOM};
static struct bsp_file *const devices[] = {&input, &output, &errors, &nothing, &random_bytes};

static int refuse(int reason)
{
    errno = reason;
    return -1;
}

int bsp_is_number(int number)
{
    return number >= FIRST_FILE && number < FIRST_FILE + MOST_FILES;
}

struct bsp_open *bsp_open_of(int number)
{
    struct bsp_open *open = bsp_is_number(number) ? &opened[number - FIRST_FILE] : NULL;
    return open != NULL && open->file != NULL ? open : NULL;
}

/* The files that bsprun gives, made when one is first looked for. */
static void know_given_files(void)
{
    static int is_done = 0;
    if (is_done)
        return;
    is_done = 1;
    for (int i = bsp_given_count - 1; i >= 0; i--) {
        struct bsp_file *file = calloc(1, sizeof *file);
        if (file == NULL)
            bsp_stop("there is no memory for the files of bsprun: give --memory");
        *file = (struct bsp_file){.next = files,
            .name = (char *)bsp_given[i].name,
            .bytes = (char *)bsp_given[i].bytes,
            .size = bsp_given[i].size,
            .is_given = 1};
        files = file;
    }
}

static const char *without_dot(const char *name)
{
    while (strncmp(name, "./", 2) == 0)
        name += 2;
    return name;
}

/* A name without what leads out of a folder, and without the root. */
static const char *without_root(const char *name)
{
    for (;;) {
        if (*name == '/')
            name++;
        else if (strncmp(name, "./", 2) == 0)
            name += 2;
        else if (strncmp(name, "../", 3) == 0)
            name += 3;
        else
            return name;
    }
}

/* Whether a path is the last folders and the name of another one. */
static int is_end(const char *end, const char *path)
{
    size_t size = strlen(end), whole = strlen(path);
    return size > 0 && size <= whole && strcmp(path + whole - size, end) == 0 && (size == whole || path[whole - size - 1] == '/');
}

/* The file that has exactly this name, or NULL. */
static struct bsp_file *file_of_name(const char *name)
{
    know_given_files();
    name = without_dot(name);
    for (struct bsp_file *file = files; file != NULL; file = file->next)
        if (file->name != NULL && strcmp(without_dot(file->name), name) == 0)
            return file;
    return NULL;
}

/* A file that was given may be named by another path to it: one of the two is the end of the other. bsprun is told of a name that is not
   exactly that of a file, since it may have the file. */
struct bsp_file *bsp_file_named(const char *name)
{
    struct bsp_file *found = file_of_name(name);
    if (found == NULL)
        bsp_note(NOTE_ASKED, __builtin_return_address(0), 0, 0, name);
    name = without_root(name);
    for (struct bsp_file *file = files; found == NULL && file != NULL; file = file->next) {
        const char *given = file->name != NULL && file->is_given ? without_root(file->name) : NULL;
        if (given != NULL && (is_end(name, given) || is_end(given, name)))
            found = file;
    }
    return found;
}

static struct bsp_file *device_named(const char *name)
{
    if (strcmp(name, "/dev/tty") == 0)
        return &output;
    if (strcmp(name, "/dev/random") == 0)
        return &random_bytes;
    for (size_t i = 0; i < sizeof devices / sizeof *devices; i++)
        if (strcmp(devices[i]->name, name) == 0)
            return devices[i];
    return NULL;
}

/* Tells bsprun the name of a file, and its number where it has none yet. */
static void tell_name(struct bsp_file *file)
{
    size_t size = strlen(file->name);
    if (file->number == 0)
        file->number = ++number_of_files;
    bsp_record(RECORD_NAME, &file->number, 1, file->name, size < MOST_RECORD_BYTES ? (int)size : MOST_RECORD_BYTES);
}

static void tell_bytes(const struct bsp_file *file, size_t place, const char *bytes, size_t count)
{
    while (file->number != 0 && count > 0) {
        size_t part = count < MOST_RECORD_BYTES ? count : MOST_RECORD_BYTES;
        const unsigned words[] = {file->number, (unsigned)place};
        bsp_record(RECORD_BYTES, words, 2, bytes, (int)part);
        place += part;
        bytes += part;
        count -= part;
    }
}

static void tell_size(struct bsp_file *file)
{
    const unsigned words[] = {file->number, (unsigned)file->size};
    if (file->number != 0)
        bsp_record(RECORD_SIZE, words, 2, "", 0);
}

/* Room for so many bytes and for the old ones. Those between both are 0. Where there is none, the bytes are not kept any longer. */
static int make_room(struct bsp_file *file, size_t size)
{
    size_t wanted = size > file->size ? size : file->size;
    if (wanted > file->room && !file->is_lost) {
        size_t room = wanted < 256 ? 512 : 2 * wanted;
        char *larger = file->room > 0 ? realloc(file->bytes, room) : malloc(room);
        if (larger == NULL) {
            file->is_lost = 1;
            free(file->room > 0 ? file->bytes : NULL);
            file->bytes = NULL;
            file->room = 0;
            return 0;
        }
        if (file->room == 0 && file->size > 0)
            memcpy(larger, file->bytes, file->size);
        file->bytes = larger;
        file->room = room;
    }
    if (!file->is_lost && size > file->size)
        memset(file->bytes + file->size, 0, size - file->size);
    return !file->is_lost;
}

static struct bsp_file *new_file(const char *name)
{
    struct bsp_file *file = calloc(1, sizeof *file);
    if (file != NULL && name != NULL && (file->name = strdup(without_dot(name))) == NULL) {
        free(file);
        file = NULL;
    }
    if (file != NULL) {
        file->next = files;
        files = file;
    }
    return file;
}

/* A file that can be written: one that there is, or a new one. NULL with a reason. */
static struct bsp_file *writable(const char *name, int flags)
{
    struct bsp_file *file = flags & O_TRUNC ? file_of_name(name) : bsp_file_named(name);
    if (!(bsp_settings.flags & BSP_WRITES_FILES)) {
        bsp_note(NOTE_UNWRITTEN, __builtin_return_address(0), 0, 0, name);
        errno = EROFS;
        return NULL;
    }
    if (file == NULL && !(flags & O_CREAT)) {
        bsp_note(NOTE_ABSENT, __builtin_return_address(0), 0, 0, name);
        errno = ENOENT;
        return NULL;
    }
    if (file != NULL && (flags & O_CREAT) && (flags & O_EXCL)) {
        errno = EEXIST;
        return NULL;
    }
    if (file == NULL && (file = new_file(name)) == NULL)
        return NULL;
    if (file->number == 0) {
        if (strcmp(without_dot(file->name), without_dot(name)) != 0 && (file->name = strdup(without_dot(name))) == NULL)
            return NULL;
        tell_name(file);
        if (!(flags & O_TRUNC))
            tell_bytes(file, 0, file->bytes, file->size);
    }
    if (flags & O_TRUNC) {
        file->size = 0;
        file->is_lost = 0;
        tell_size(file);
    }
    return file;
}

static struct bsp_file *readable(const char *name)
{
    struct bsp_file *file = bsp_file_named(name);
    if (file != NULL && !file->is_lost)
        return file;
    bsp_note(file == NULL ? NOTE_ABSENT : NOTE_LOST, __builtin_return_address(0), 0, 0, name);
    errno = ENOENT;
    return NULL;
}

static int open_file(struct bsp_file *file, int flags)
{
    for (int i = 0; file != NULL && i < MOST_FILES; i++)
        if (opened[i].file == NULL) {
            opened[i] = (struct bsp_open){.file = file, .flags = flags};
            return FIRST_FILE + i;
        }
    return file == NULL ? -1 : refuse(EMFILE);
}

WEAK int open(const char *name, int flags, ...)
{
    struct bsp_file *file;
    if (name == NULL)
        bsp_stop("fopen was called with NULL as the name of the file; was the program given too few arguments?");
    file = device_named(name);
    if (file == NULL)
        file = (flags & O_ACCMODE) == O_RDONLY ? readable(name) : writable(name, flags);
    return open_file(file, flags);
}

/* A file without a name, which stays in the node. */
int bsp_open_nameless(void)
{
    return open_file(new_file(NULL), O_RDWR);
}

WEAK int creat(const char *name, mode_t mode)
{
    return open(name, O_WRONLY | O_CREAT | O_TRUNC, mode);
}

WEAK int close(int number)
{
    struct bsp_open *open = bsp_open_of(number);
    if (open == NULL)
        return number >= 0 && number <= 2 ? 0 : refuse(EBADF);
    open->file = NULL;
    open->stream = NULL;
    return 0;
}

/* Bytes that look random, and are the same in each run: each rank has others. */
static ssize_t read_random(unsigned char *to, size_t count)
{
    static unsigned state = 0;
    if (state == 0)
        state = 0x9e3779b9u * (unsigned)(machine_call_0(CALL_PID) + 1);
    for (size_t i = 0; i < count; i++) {
        state = state * 1664525u + 1013904223u;
        to[i] = (unsigned char)(state >> 24);
    }
    return (ssize_t)count;
}

WEAK ssize_t read(int number, void *bytes, size_t count)
{
    struct bsp_open *open = bsp_open_of(number);
    size_t left;
    if (number == 0 || (open != NULL && open->file->device == DEVICE_INPUT))
        return bsp_input_read(bytes, (int)count);
    if (open == NULL || (open->flags & O_ACCMODE) == O_WRONLY)
        return refuse(EBADF);
    if (open->file->device == DEVICE_RANDOM)
        return read_random(bytes, count);
    if (open->file->device != DEVICE_NONE || open->next >= open->file->size || open->file->is_lost)
        return 0;
    left = open->file->size - open->next;
    count = count < left ? count : left;
    memcpy(bytes, open->file->bytes + open->next, count);
    open->next += count;
    return (ssize_t)count;
}

WEAK off_t lseek(int number, off_t offset, int whence)
{
    struct bsp_open *open = bsp_open_of(number);
    off_t from, place;
    if (open == NULL || open->file->device != DEVICE_NONE)
        return refuse(open != NULL || (number >= 0 && number <= 2) ? ESPIPE : EBADF);
    if (whence != SEEK_SET && whence != SEEK_CUR && whence != SEEK_END)
        return refuse(EINVAL);
    from = whence == SEEK_SET ? 0 : (off_t)(whence == SEEK_CUR ? open->next : open->file->size);
    if (__builtin_add_overflow(from, offset, &place))
        return refuse(EOVERFLOW);
    if (place < 0)
        return refuse(EINVAL);
    open->next = (size_t)place;
    return place;
}

/* Puts bytes into a file: into what the node keeps of it, and into that of bsprun. */
static ssize_t put_bytes(struct bsp_open *open, const char *bytes, size_t count)
{
    struct bsp_file *file = open->file;
    size_t place = open->flags & O_APPEND ? file->size : open->next;
    if (count > MOST_BYTES - place)
        return refuse(EFBIG);
    if (make_room(file, place + count))
        memcpy(file->bytes + place, bytes, count);
    else if (file->number == 0)
        return refuse(ENOSPC);
    tell_bytes(file, place, bytes, count);
    open->next = place + count;
    if (file->size < open->next)
        file->size = open->next;
    return (ssize_t)count;
}

WEAK ssize_t write(int number, const void *bytes, size_t count)
{
    struct bsp_open *open = bsp_open_of(number);
    enum bsp_device device = number == 1 ? DEVICE_OUTPUT : number == 2 ? DEVICE_ERROR : open != NULL ? open->file->device : DEVICE_INPUT;
    if (device == DEVICE_INPUT || (open != NULL && (open->flags & O_ACCMODE) == O_RDONLY))
        return refuse(EBADF);
    if (device == DEVICE_NONE)
        return put_bytes(open, bytes, count);
    if (device != DEVICE_NULL)
        bsp_stdio_write(device == DEVICE_ERROR ? 2 : 1, bytes, count);
    return (ssize_t)count;
}

WEAK int ftruncate(int number, off_t size)
{
    struct bsp_open *open = bsp_open_of(number);
    if (open == NULL || open->file->device != DEVICE_NONE || (open->flags & O_ACCMODE) == O_RDONLY || size < 0)
        return refuse(EINVAL);
    if (!make_room(open->file, (size_t)size) && open->file->number == 0)
        return refuse(ENOSPC);
    open->file->size = (size_t)size;
    tell_size(open->file);
    return 0;
}

/* Takes a file away. One that is open goes on without a name. */
WEAK int unlink(const char *name)
{
    struct bsp_file *file = bsp_file_named(name);
    if (file == NULL)
        return refuse(ENOENT);
    if (file->number == 0 && !(bsp_settings.flags & BSP_WRITES_FILES))
        return refuse(EROFS);
    if (file->number != 0)
        bsp_record(RECORD_REMOVED, &file->number, 1, "", 0);
    file->number = 0;
    file->name = NULL;
    return 0;
}

WEAK int remove(const char *name)
{
    return unlink(name);
}

WEAK int rename(const char *old, const char *name)
{
    struct bsp_file *file = bsp_file_named(old), *other = bsp_file_named(name);
    char *copy;
    if (file == NULL)
        return refuse(ENOENT);
    if (!(bsp_settings.flags & BSP_WRITES_FILES))
        return refuse(EROFS);
    copy = strdup(without_dot(name));
    if (copy == NULL)
        return -1;
    if (other != NULL && other != file)
        unlink(name);
    file->name = copy;
    file->is_given = 0;
    if (file->number == 0) {
        tell_name(file);
        tell_bytes(file, 0, file->bytes, file->size);
    } else
        tell_name(file);
    return 0;
}

/* bsprun makes the folders of the files that it writes, so that any is there. */
WEAK int mkdir(const char *name, mode_t mode)
{
    (void)name;
    (void)mode;
    return bsp_settings.flags & BSP_WRITES_FILES ? 0 : refuse(EROFS);
}

WEAK int rmdir(const char *name)
{
    return mkdir(name, 0);
}

WEAK int isatty(int file)
{
    (void)file;
    return 0;
}

/* One reading is that of a seed, and no measure. */
WEAK time_t time(time_t *to)
{
    static int is_read = 0;
    time_t now = (time_t)(is_read ? bsp_clock() : bsp_clock_untold());
    is_read = 1;
    if (to != NULL)
        *to = now;
    return now;
}

/* Without a clock it says so, for as long as the time stands still. */
WEAK clock_t clock(void)
{
    double now = bsp_clock();
    return now == 0 && !bsp_has_clock() ? (clock_t)-1 : (clock_t)(now * CLOCKS_PER_SEC);
}

WEAK int gettimeofday(struct timeval *restrict to, void *restrict zone)
{
    (void)zone;
    double now = bsp_clock();
    to->tv_sec = (time_t)now;
    to->tv_usec = (suseconds_t)((now - (double)to->tv_sec) * 1e6);
    return 0;
}

/* picolibc has neither of these. */
WEAK ssize_t getdelim(char **restrict line, size_t *restrict size, int last, FILE *restrict file)
{
    size_t count = 0;
    int byte = getc(file);
    if (byte == EOF)
        return -1;
    for (;; byte = getc(file)) {
        if (*line == NULL || count + 1 >= *size) {
            size_t wanted = *line == NULL || *size < 60 ? 120 : 2 * *size;
            char *larger = realloc(*line, wanted);
            if (larger == NULL)
                return -1;
            *line = larger;
            *size = wanted;
        }
        if (byte == EOF)
            break;
        (*line)[count++] = (char)byte;
        if (byte == last)
            break;
    }
    (*line)[count] = '\0';
    return (ssize_t)count;
}

WEAK ssize_t getline(char **restrict line, size_t *restrict size, FILE *restrict file)
{
    return getdelim(line, size, '\n', file);
}
