/* What machine this is: the same on every node. picolibc has no such header. */
#ifndef BSP_LIBC_SYS_UTSNAME_H
#define BSP_LIBC_SYS_UTSNAME_H

#pragma GCC system_header

#ifdef __cplusplus
extern "C" {
#endif

struct utsname {
    char sysname[16], nodename[16], release[16], version[16], machine[16];
};

int uname(struct utsname *);

#ifdef __cplusplus
}
#endif

#endif
