/* Threads, a lock and a barrier. They need no C library. */
#ifndef GUEST_H
#define GUEST_H

/* A thread. Zero it or not: guest_thread_start sets all of it. It may not move or end before it is joined. */
struct guest_thread {
    int tid; /* cleared by the kernel at the thread's end, which also wakes who joins */
    int result;
    int (*body)(void *argument);
    void *argument;
    void *memory;
    unsigned long memory_size;
};

/* A stack's size where none is asked for. Each of its pages takes a frame from the start on. */
#define GUEST_STACK 32768

/*
 * Starts body(argument) on a new thread of this process. Answers 0, or a negated errno of Linux: 11 with sixteen
 * threads, 12 without frames.
 */
int guest_thread_start(struct guest_thread *thread, int (*body)(void *), void *argument);
int guest_thread_start_sized(struct guest_thread *thread, unsigned long stack, int (*body)(void *), void *argument);

/* Waits for the thread's end, gives its memory back, and answers what body returned. Once for each thread. */
int guest_thread_join(struct guest_thread *thread);

/* A lock: zeros are an open one. Not recursive. */
struct guest_lock {
    int word; /* 0 open, 1 held, 2 held and someone may be asleep */
};

void guest_lock(struct guest_lock *lock);
int guest_try_lock(struct guest_lock *lock); /* 1 where it was open */
void guest_unlock(struct guest_lock *lock);

/* A barrier for `parties` threads, to be used any number of times. */
struct guest_barrier {
    int parties;
    int arrived;
    int round;
};

void guest_barrier_begin(struct guest_barrier *barrier, int parties);
int guest_barrier_wait(struct guest_barrier *barrier); /* 1 in the last thread to come, else 0 */

#endif
