/* There is no clock: each question for the time answers an error, and nothing crashes on it. */
#include <errno.h>
#include <stdio.h>
#include <string.h>
#include <sys/time.h>
#include <time.h>
#include <unistd.h>

int main(void) {
    struct timeval now;
    struct timespec precise;
    printf("time %ld\n", (long)time(NULL));
    printf("clock %ld\n", (long)clock());
    errno = 0;
    int told = gettimeofday(&now, NULL);
    printf("gettimeofday %d: %s\n", told, strerror(errno));
    printf("clock_gettime %d\n", clock_gettime(CLOCK_REALTIME, &precise));
    printf("sleep %u\n", sleep(2));
    /* A time that is given is turned into a date all the same. */
    time_t given = 86400 * 365;
    char text[64];
    strftime(text, sizeof text, "%Y-%m-%d %H:%M:%S", gmtime(&given));
    printf("%s\n", text);
    return 0;
}
