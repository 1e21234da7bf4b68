/*
 * The locks around the C library's heap and streams. A stream is locked for each character, so nothing is locked
 * before a second thread was started. They are recursive; a thread is known by its tp.
 */
#include <stdlib.h>
#include <sys/lock.h>

#include "locks.h"

struct __lock __lock___libc_recursive_mutex;

extern int guest_threaded;

static void *self(void) {
    void *tp;
    __asm__ volatile("mv %0, tp" : "=r"(tp));
    return tp;
}

void __retarget_lock_init(_LOCK_T *lock) {
    *lock = calloc(1, sizeof **lock);
}

void __retarget_lock_init_recursive(_LOCK_T *lock) {
    *lock = calloc(1, sizeof **lock);
}

void __retarget_lock_close(_LOCK_T lock) {
    free(lock);
}

void __retarget_lock_close_recursive(_LOCK_T lock) {
    free(lock);
}

/* Only this thread writes its own tp there, so a holder that equals it is no other's. */
void __retarget_lock_acquire_recursive(_LOCK_T lock) {
    if (!guest_threaded || lock == NULL) {
        return;
    }
    if (lock->holder != self()) {
        guest_lock(&lock->lock);
        lock->holder = self();
    }
    lock->depth++;
}

int __retarget_lock_try_acquire_recursive(_LOCK_T lock) {
    if (!guest_threaded || lock == NULL) {
        return 1;
    }
    if (lock->holder != self()) {
        if (!guest_try_lock(&lock->lock)) {
            return 0;
        }
        lock->holder = self();
    }
    lock->depth++;
    return 1;
}

/* The depth is 0 for a lock that was passed before there were threads. */
void __retarget_lock_release_recursive(_LOCK_T lock) {
    if (!guest_threaded || lock == NULL || lock->holder != self() || lock->depth == 0) {
        return;
    }
    if (--lock->depth == 0) {
        lock->holder = NULL;
        guest_unlock(&lock->lock);
    }
}

void __retarget_lock_acquire(_LOCK_T lock) {
    __retarget_lock_acquire_recursive(lock);
}

int __retarget_lock_try_acquire(_LOCK_T lock) {
    return __retarget_lock_try_acquire_recursive(lock);
}

void __retarget_lock_release(_LOCK_T lock) {
    __retarget_lock_release_recursive(lock);
}
