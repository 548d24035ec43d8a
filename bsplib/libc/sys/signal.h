/* picolibc's sys/signal.h, with a sigaction that has all of its members. */
#ifndef BSP_LIBC_SYS_SIGNAL_H
#define BSP_LIBC_SYS_SIGNAL_H

#pragma GCC system_header

#define sigaction bsp_no_sigaction
#include_next <sys/signal.h>
#undef sigaction

#if __POSIX_VISIBLE
#ifdef __cplusplus
extern "C" {
#endif

#if !(defined(_POSIX_REALTIME_SIGNALS) || __POSIX_VISIBLE >= 199309)
typedef struct {
    int si_signo, si_code;
} siginfo_t;
#endif

struct sigaction {
    union {
        void (*sa_handler)(int);
        void (*sa_sigaction)(int, siginfo_t *, void *);
    };
    sigset_t sa_mask;
    int sa_flags;
};
#define SA_SIGINFO 0x4
#define SA_ONSTACK 0x08000000
#define SA_RESTART 0x10000000
#define SA_NODEFER 0x40000000
#define SA_RESETHAND ((int)0x80000000u)

int sigaction(int number, const struct sigaction *wanted, struct sigaction *before);
int sigprocmask(int how, const sigset_t *wanted, sigset_t *before);
int sigpending(sigset_t *to);
int sigsuspend(const sigset_t *set);
int kill(int process, int number);

#ifdef __cplusplus
}
#endif
#endif

#endif
