/* Handlers, a masked signal, a fault that is caught, and an end by a signal. */
#include <setjmp.h>
#include <signal.h>
#include <stdio.h>
#include <string.h>
#include <unistd.h>

static volatile sig_atomic_t seen, count;
static jmp_buf back;
static volatile int *volatile nowhere = (volatile int *)8;

static void note(int signal) {
    seen = signal;
    count++;
}

static void leave(int signal) {
    sigset_t one;
    sigemptyset(&one);
    sigaddset(&one, signal);
    sigprocmask(SIG_UNBLOCK, &one, NULL);
    longjmp(back, signal);
}

int main(void) {
    signal(SIGUSR1, note);
    raise(SIGUSR1);
    printf("seen %d, %d times\n", seen, count);

    struct sigaction once;
    memset(&once, 0, sizeof once);
    once.sa_handler = note;
    once.sa_flags = SA_RESETHAND;
    sigaction(SIGUSR2, &once, NULL);
    sigset_t usr2, pending;
    sigemptyset(&usr2);
    sigaddset(&usr2, SIGUSR2);
    sigprocmask(SIG_BLOCK, &usr2, NULL);
    kill(getpid(), SIGUSR2);
    sigpending(&pending);
    printf("pending %d, seen %d\n", sigismember(&pending, SIGUSR2), seen);
    sigprocmask(SIG_UNBLOCK, &usr2, NULL);
    printf("seen %d, %d times\n", seen, count);

    signal(SIGSEGV, leave);
    int caught = setjmp(back);
    if (caught == 0) {
        *nowhere = 1;
    }
    printf("caught %d\n", caught);

    signal(SIGTERM, SIG_IGN);
    raise(SIGTERM);
    printf("still here\n");
    fflush(stdout);
    raise(SIGUSR2);
    printf("not reached\n");
    return 0;
}
