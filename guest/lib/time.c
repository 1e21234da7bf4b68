/*
 * The node has no clock. Each of these answers an error, and so do time() and clock() of the C library, which ask
 * them.
 */
#include <sys/resource.h>
#include <sys/time.h>
#include <sys/times.h>
#include <time.h>
#include <unistd.h>

#include "answer.h"

int gettimeofday(struct timeval *restrict to, void *restrict zone) {
    (void)zone;
    if (to != NULL) {
        to->tv_sec = 0;
        to->tv_usec = 0;
    }
    return missing();
}

clock_t times(struct tms *to) {
    if (to != NULL) {
        *to = (struct tms){0};
    }
    return (clock_t)missing();
}

int getrusage(int whose, struct rusage *to) {
    (void)whose;
    *to = (struct rusage){0};
    return missing();
}

clock_t clock(void) {
    return (clock_t)missing();
}

int clock_gettime(clockid_t which, struct timespec *to) {
    (void)which;
    *to = (struct timespec){0};
    return missing();
}

int clock_getres(clockid_t which, struct timespec *to) {
    return clock_gettime(which, to);
}

int nanosleep(const struct timespec *time, struct timespec *left) {
    (void)time;
    (void)left;
    return missing();
}

int usleep(useconds_t time) {
    (void)time;
    return missing();
}

/* Nothing of the time was slept. */
unsigned int sleep(unsigned int seconds) {
    return seconds;
}

unsigned int alarm(unsigned int seconds) {
    (void)seconds;
    return 0;
}
