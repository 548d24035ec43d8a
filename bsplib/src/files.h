/* Files and streams, as files.c, buffered.c and streams.c share them. */
#ifndef BSP_FILES_H
#define BSP_FILES_H

#include <stdio.h>

#include "machine.h"

enum bsp_device { DEVICE_NONE, DEVICE_INPUT, DEVICE_OUTPUT, DEVICE_ERROR, DEVICE_NULL, DEVICE_RANDOM };

/* A file of this node: one that bsprun gave, one that the program made, or a device. */
struct bsp_file {
    struct bsp_file *next;
    char *name; /* NULL where it has none, or none any longer */
    char *bytes;
    size_t size, room; /* no room where the bytes are those of the block */
    unsigned number; /* by which bsprun knows it, from 1 on; 0 where it knows nothing of it */
    int is_given; /* whether it has the name that bsprun gave it */
    int is_lost; /* whether there was no memory to keep the bytes */
    enum bsp_device device;
};

/* An open file: where it goes on, its flags, and the stream over it, or NULL. */
struct bsp_open {
    struct bsp_file *file;
    size_t next;
    int flags;
    FILE *stream;
};

/* The file of this name, or NULL. */
struct bsp_file *bsp_file_named(const char *name);

/* Whether a number may be one of an open file; the open file of a number, or NULL; and the number of a new file without a name, which
   stays in the node, or -1. */
int bsp_is_number(int number);
struct bsp_open *bsp_open_of(int number);
int bsp_open_nameless(void);

/* What a stream that is read alone puts by, and one that is written alone gets by: errors. */
int bsp_put_refused(char byte, FILE *file);
int bsp_get_refused(FILE *file);

/* A stream that is to `seek` with this goes back by the byte that it gave last, where that is `offset`, and else answers -1. So scanf leaves a
   byte without the one place that ungetc has. */
enum { BSP_BACK = SEEK_END + 1 };

/* freopen of a stream over a file. */
FILE *bsp_reopen_buffered(const char *name, const char *mode, FILE *file);

#endif
