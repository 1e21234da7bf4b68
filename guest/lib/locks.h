/* What stands behind a lock of the C library. */
#ifndef GUEST_LOCKS_H
#define GUEST_LOCKS_H

#include "guest.h"

struct __lock {
    struct guest_lock lock;
    int depth;
    void *volatile holder;
};

#endif
