/* Signals that a program raises itself, and handlers that jump out. */
#include <assert.h>
#include <bsp.h>
#include <setjmp.h>
#include <signal.h>
#include <stdio.h>
#include <stdlib.h>
#include <string.h>
#include <unistd.h>

static volatile sig_atomic_t got, count;
static sigjmp_buf back;

static void note(int sig)
{
    got = sig;
    ++count;
    signal(sig, note);
}

static void out(int sig)
{
    siglongjmp(back, sig);
}

static int divide(int a, int b)
{
    if (b == 0)
        raise(SIGFPE);
    return a / b;
}

int main(void)
{
    struct sigaction action;
    int sig;

    bsp_begin(bsp_nprocs());
    assert(signal(SIGUSR1, note) == SIG_DFL);
    assert(signal(SIGUSR1, note) == note);
    raise(SIGUSR1);
    raise(SIGUSR1);
    printf("%d: %d times, %s\n", bsp_pid(), (int)count, got == SIGUSR1 ? "SIGUSR1" : "another");
    memset(&action, 0, sizeof action);
    action.sa_handler = out;
    sigemptyset(&action.sa_mask);
    if (sigaction(SIGFPE, &action, NULL) != 0)
        perror("sigaction");
    if ((sig = sigsetjmp(back, 1)) == 0)
        printf("%d\n", divide(7, bsp_pid() % 2));
    else
        printf("%d: stopped by %s\n", bsp_pid(), sig == SIGFPE ? strsignal(sig) : "something");
    signal(SIGTERM, SIG_IGN);
    raise(SIGTERM);
    signal(SIGINT, SIG_IGN);
    kill(getpid(), SIGINT);
    bsp_end();
    return 0;
}
