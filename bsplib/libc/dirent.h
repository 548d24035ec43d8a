/* Folders, which nodes do not have: opendir answers NULL with ENOSYS. */
#ifndef BSP_LIBC_DIRENT_H
#define BSP_LIBC_DIRENT_H

#pragma GCC system_header

#include <sys/types.h>

#ifdef __cplusplus
extern "C" {
#endif

enum { DT_UNKNOWN = 0, DT_DIR = 4, DT_REG = 8, DT_LNK = 10 };
typedef struct bsp_folder DIR;
struct dirent {
    ino_t d_ino;
    unsigned char d_type;
    char d_name[256];
};
DIR *opendir(const char *name);
struct dirent *readdir(DIR *folder);
int closedir(DIR *folder);
void rewinddir(DIR *folder);
int dirfd(DIR *folder);
int scandir(const char *name, struct dirent ***found, int (*wanted)(const struct dirent *), int (*order)(const struct dirent **, const struct dirent **));
int alphasort(const struct dirent **one, const struct dirent **other);

#ifdef __cplusplus
}
#endif

#endif
