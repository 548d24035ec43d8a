/* Terminals, which nodes do not have: all answers are ENOTTY. */
#ifndef BSP_LIBC_TERMIOS_H
#define BSP_LIBC_TERMIOS_H

#pragma GCC system_header

#ifdef __cplusplus
extern "C" {
#endif

typedef unsigned tcflag_t, speed_t;
typedef unsigned char cc_t;
enum { NCCS = 32 };
struct termios {
    tcflag_t c_iflag, c_oflag, c_cflag, c_lflag;
    cc_t c_cc[NCCS];
};
enum { VINTR, VQUIT, VERASE, VKILL, VEOF, VTIME, VMIN };
enum { TCSANOW, TCSADRAIN, TCSAFLUSH };
enum { BRKINT = 02, ICRNL = 0400, INPCK = 020, ISTRIP = 040, IXON = 02000 };
enum { OPOST = 01, ONLCR = 04, CS8 = 060 };
enum { ISIG = 01, ICANON = 02, ECHO = 010, ECHOE = 020, ECHOK = 040, ECHONL = 0100, IEXTEN = 0100000 };
int tcgetattr(int file, struct termios *to);
int tcsetattr(int file, int when, const struct termios *from);

#ifdef __cplusplus
}
#endif

#endif
