/* Signals by the kernel, in place of the C library's, which only calls a function of a table. */
#include <signal.h>
#include <stdlib.h>
#include <unistd.h>

#include "answer.h"
#include "guest/calls.h"

/* The record of rt_sigaction. */
struct action {
    void (*handler)(int);
    unsigned long flags;
    unsigned long mask;
};

int sigaction(int signal, const struct sigaction *to, struct sigaction *old) {
    struct action given, before;
    if (to != NULL) {
        given.handler = to->sa_handler;
        given.flags = (unsigned int)to->sa_flags;
        given.mask = to->sa_mask;
    }
    long told = guest_call6(GUEST_RT_SIGACTION, signal, (long)(to != NULL ? &given : NULL),
                            (long)(old != NULL ? &before : NULL), 8, 0, 0);
    if (told < 0) {
        return (int)answer(told);
    }
    if (old != NULL) {
        old->sa_handler = before.handler;
        old->sa_flags = (int)before.flags;
        old->sa_mask = before.mask;
    }
    return 0;
}

_sig_func_ptr signal(int number, _sig_func_ptr handler) {
    struct sigaction to = {.sa_handler = handler, .sa_flags = SA_RESTART}, old;
    return sigaction(number, &to, &old) < 0 ? SIG_ERR : old.sa_handler;
}

int sigprocmask(int how, const sigset_t *to, sigset_t *old) {
    return (int)answer(guest_call6(GUEST_RT_SIGPROCMASK, how, (long)to, (long)old, 8, 0, 0));
}

int pthread_sigmask(int how, const sigset_t *to, sigset_t *old) {
    return sigprocmask(how, to, old) < 0 ? errno : 0;
}

int sigpending(sigset_t *to) {
    return (int)answer(guest_call(GUEST_RT_SIGPENDING, (long)to, 8, 0));
}

static unsigned long bit_of(int signal) {
    return signal >= 1 && signal < NSIG ? 1ul << (signal - 1) : 0;
}

static int changed(unsigned long bit) {
    if (bit == 0) {
        errno = EINVAL;
        return -1;
    }
    return 0;
}

int sigemptyset(sigset_t *set) {
    *set = 0;
    return 0;
}

int sigfillset(sigset_t *set) {
    *set = ~0ul;
    return 0;
}

int sigaddset(sigset_t *set, const int signal) {
    *set |= bit_of(signal);
    return changed(bit_of(signal));
}

int sigdelset(sigset_t *set, const int signal) {
    *set &= ~bit_of(signal);
    return changed(bit_of(signal));
}

int sigismember(const sigset_t *set, int signal) {
    return changed(bit_of(signal)) < 0 ? -1 : (*set & bit_of(signal)) != 0;
}

int kill(pid_t process, int signal) {
    return (int)answer(guest_call(GUEST_KILL, process, signal, 0));
}

int raise(int signal) {
    long process = guest_call(GUEST_GETPID, 0, 0, 0), thread = guest_call(GUEST_GETTID, 0, 0, 0);
    return (int)answer(guest_call(GUEST_TGKILL, process, thread, signal));
}

/* Where the signal is ignored or handled, the process ends by it all the same. */
void abort(void) {
    raise(SIGABRT);
    signal(SIGABRT, SIG_DFL);
    raise(SIGABRT);
    _exit(127);
}
