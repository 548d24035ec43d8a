/* Walks through folders, which nodes do not have: ENOSYS. */
#ifndef BSP_LIBC_FTW_H
#define BSP_LIBC_FTW_H

#pragma GCC system_header

#include <sys/stat.h>

#ifdef __cplusplus
extern "C" {
#endif

enum { FTW_F, FTW_D, FTW_DNR, FTW_NS, FTW_SL };
enum { FTW_PHYS = 1, FTW_MOUNT = 2, FTW_CHDIR = 4, FTW_DEPTH = 8 };
struct FTW {
    int base, level;
};
int ftw(const char *name, int (*each)(const char *, const struct stat *, int), int most);
int nftw(const char *name, int (*each)(const char *, const struct stat *, int, struct FTW *), int most, int flags);

#ifdef __cplusplus
}
#endif

#endif
