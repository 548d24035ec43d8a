/* How many processors there are: a node is one. picolibc has no such header. */
#ifndef BSP_LIBC_SYS_SYSINFO_H
#define BSP_LIBC_SYS_SYSINFO_H

#pragma GCC system_header

static inline int get_nprocs(void) { return 1; }
static inline int get_nprocs_conf(void) { return 1; }

#endif
