/* Processes: fork and wait, and their numbers. There is no execve. */
#include <sched.h>
#include <stdlib.h>
#include <sys/wait.h>
#include <unistd.h>

#include "answer.h"
#include "guest/calls.h"

pid_t fork(void) {
    /* The ending signal 17, SIGCHLD, and nothing shared. */
    return (pid_t)answer(guest_call6(GUEST_CLONE, 17, 0, 0, 0, 0, 0));
}

pid_t waitpid(pid_t process, int *status, int options) {
    return (pid_t)answer(guest_call6(GUEST_WAIT4, process, (long)status, options, 0, 0, 0));
}

pid_t wait(int *status) {
    return waitpid(-1, status, 0);
}

pid_t getpid(void) {
    return (pid_t)guest_call(GUEST_GETPID, 0, 0, 0);
}

pid_t getppid(void) {
    return (pid_t)guest_call(GUEST_GETPPID, 0, 0, 0);
}

int sched_yield(void) {
    return (int)answer(guest_call(GUEST_SCHED_YIELD, 0, 0, 0));
}
