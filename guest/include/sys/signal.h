/* The C library's header, with the numbers of Linux in place of its own, and with what goes with the node's calls. */
#ifndef GUEST_SYS_SIGNAL_H
#define GUEST_SYS_SIGNAL_H

#include_next <sys/signal.h>

#undef SIGEMT
#undef SIGBUS
#undef SIGUSR1
#undef SIGUSR2
#undef SIGSYS
#undef SIGURG
#undef SIGSTOP
#undef SIGTSTP
#undef SIGCONT
#undef SIGCHLD
#undef SIGCLD
#undef SIGTTIN
#undef SIGTTOU
#undef SIGIO
#undef SIGPOLL
#undef SIGXCPU
#undef SIGXFSZ
#undef SIGVTALRM
#undef SIGPROF
#undef SIGWINCH
#undef SIGLOST
#undef SIGPWR
#undef NSIG
#undef _NSIG

#define SIGBUS 7
#define SIGUSR1 10
#define SIGUSR2 12
#define SIGSTKFLT 16
#define SIGCHLD 17
#define SIGCONT 18
#define SIGSTOP 19
#define SIGTSTP 20
#define SIGTTIN 21
#define SIGTTOU 22
#define SIGURG 23
#define SIGXCPU 24
#define SIGXFSZ 25
#define SIGVTALRM 26
#define SIGPROF 27
#define SIGWINCH 28
#define SIGIO 29
#define SIGPOLL 29
#define SIGPWR 30
#define SIGSYS 31
#define NSIG 65

#undef SA_NOCLDSTOP
#define SA_NOCLDSTOP 1
#define SA_RESTART 0x10000000
#define SA_NODEFER 0x40000000
#define SA_RESETHAND ((int)0x80000000)

#undef SIG_BLOCK
#undef SIG_UNBLOCK
#undef SIG_SETMASK
#define SIG_BLOCK 0
#define SIG_UNBLOCK 1
#define SIG_SETMASK 2

/* In a set signal s is bit s - 1; the library's macros have it at bit s. */
#undef sigaddset
#undef sigdelset
#undef sigemptyset
#undef sigfillset
#undef sigismember

#endif
