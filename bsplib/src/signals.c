/* Signals that a program sends itself. There are no others: nothing else runs on a node, and no clock of it rings. A handler stays until
   another one is set, as on Linux. All of it is weak, since a program may have functions of these names. */
#include <errno.h>
#include <signal.h>
#include <stddef.h>
#include <string.h>
#include <unistd.h>

#include "machine.h"

#define WEAK __attribute__((weak))

enum { SIGNALS = 65 };

static void (*handlers[SIGNALS])(int);
/* Whether a handler is called with three arguments. */
static char wants_more[SIGNALS];

static int is_signal(int number)
{
    if (number > 0 && number < SIGNALS)
        return 1;
    errno = EINVAL;
    return 0;
}

WEAK void (*signal(int number, void (*handler)(int)))(int)
{
    if (!is_signal(number))
        return SIG_ERR;
    void (*before)(int) = handlers[number];
    handlers[number] = handler;
    wants_more[number] = 0;
    return before;
}

/* What stops no program where nothing handles it. */
static int is_ignored(int number)
{
    return number == SIGCHLD || number == SIGCONT || number == SIGURG || number == SIGWINCH;
}

WEAK int raise(int number)
{
    if (!is_signal(number))
        return -1;
    void (*handler)(int) = handlers[number];
    if (handler == SIG_IGN || (handler == SIG_DFL && is_ignored(number)))
        return 0;
    if (handler == SIG_DFL)
        bsp_stop_with("the program was stopped by signal ", number, "");
    if (wants_more[number]) {
        siginfo_t about;
        union {
            void (*one)(int);
            void (*three)(int, siginfo_t *, void *);
        } more = {handler};
        memset(&about, 0, sizeof about);
        about.si_signo = number;
        more.three(number, &about, NULL);
    } else {
        handler(number);
    }
    return 0;
}

WEAK int kill(int process, int number)
{
    if (process > 1) {
        errno = ESRCH;
        return -1;
    }
    return number == 0 ? 0 : raise(number);
}

WEAK int sigaction(int number, const struct sigaction *wanted, struct sigaction *before)
{
    if (!is_signal(number))
        return -1;
    if (before != NULL) {
        memset(before, 0, sizeof *before);
        before->sa_handler = handlers[number];
        before->sa_flags = wants_more[number] ? SA_SIGINFO : 0;
    }
    if (wanted != NULL) {
        handlers[number] = wanted->sa_handler;
        wants_more[number] = (wanted->sa_flags & SA_SIGINFO) != 0;
    }
    return 0;
}

/* Nothing comes that could be held back. */
WEAK int sigprocmask(int how, const sigset_t *wanted, sigset_t *before)
{
    static sigset_t now;
    if (before != NULL)
        *before = now;
    if (wanted != NULL)
        now = how == SIG_SETMASK ? *wanted : how == SIG_BLOCK ? now | *wanted : now & ~*wanted;
    return 0;
}

WEAK int sigpending(sigset_t *to)
{
    *to = 0;
    return 0;
}

/* A program that waits for a signal would wait for ever. */
WEAK int pause(void)
{
    bsp_stop("a signal is waited for, and a node gets none from outside");
}

WEAK int sigsuspend(const sigset_t *set)
{
    (void)set;
    return pause();
}
