/* Devices, of which nodes have none: ioctl answers ENOTTY. */
#ifndef BSP_LIBC_SYS_IOCTL_H
#define BSP_LIBC_SYS_IOCTL_H

#pragma GCC system_header

#ifdef __cplusplus
extern "C" {
#endif

enum { TIOCGWINSZ = 0x5413, FIONREAD = 0x541b };
struct winsize {
    unsigned short ws_row, ws_col, ws_xpixel, ws_ypixel;
};
int ioctl(int file, unsigned long request, ...);

#ifdef __cplusplus
}
#endif

#endif
