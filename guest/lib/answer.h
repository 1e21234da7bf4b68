/*
 * From the kernel's answers to the C library's: -1 and errno, whose numbers above 34 are the library's own and not
 * Linux's.
 */
#ifndef GUEST_ANSWER_H
#define GUEST_ANSWER_H

#include <errno.h>

static inline long answer(long told) {
    if (told >= 0) {
        return told;
    }
    switch (-told) {
    case 36:
        errno = ENAMETOOLONG;
        break;
    case 38:
        errno = ENOSYS;
        break;
    case 39:
        errno = ENOTEMPTY;
        break;
    default:
        errno = (int)-told;
    }
    return -1;
}

/* What a call answers that the node hasn't. */
static inline int missing(void) {
    errno = ENOSYS;
    return -1;
}

#endif
