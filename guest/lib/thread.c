/* Threads by clone and futex; a lock and a barrier from swaps and additions. */
#include "guest.h"

#include "amo.h"
#include "guest/calls.h"
#include "tls.h"

/*
 * CLONE_VM, FS, FILES, SIGHAND, THREAD, SYSVSEM; SETTLS; PARENT_SETTID, so that a join never sees a zero too early;
 * CHILD_CLEARTID.
 */
#define THREAD_FLAGS (0x100 | 0x200 | 0x400 | 0x800 | 0x10000 | 0x40000 | 0x80000 | 0x100000 | 0x200000)

#define FUTEX_WAIT 0
#define FUTEX_WAKE 1
#define ALL 0x7fffffff

long guest_clone(long flags, void *stack, int *parent_tid, void *tls, int *child_tid, struct guest_thread *thread);

/* A second thread may run: from then on the C library's locks are real (locks.c). */
int guest_threaded;

static void sleep_while(int *word, int value) {
    guest_call6(GUEST_FUTEX, (long)word, FUTEX_WAIT, value, 0, 0, 0);
}

static void wake(int *word, int count) {
    guest_call(GUEST_FUTEX, (long)word, FUTEX_WAKE, count);
}

/* Called by guest_clone on the new stack. */
void guest_thread_body(struct guest_thread *thread) {
    thread->result = thread->body(thread->argument);
    for (;;) {
        guest_call(GUEST_EXIT, 0, 0, 0);
    }
}

int guest_thread_start_sized(struct guest_thread *thread, unsigned long stack, int (*body)(void *), void *argument) {
    unsigned long own = tls_room();
    unsigned long size = (stack + own + 4095) & ~4095ul;
    /* PROT_READ and PROT_WRITE; MAP_PRIVATE and MAP_ANONYMOUS. */
    long memory = guest_call6(GUEST_MMAP, 0, (long)size, 3, 0x22, -1, 0);
    if (memory < 0) {
        return (int)memory;
    }
    /* The thread's variables stand at the top, below them the stack, which grows down. */
    char *tls = (char *)memory + size - own;
    tls_fill(tls);
    thread->tid = 0;
    thread->result = 0;
    thread->body = body;
    thread->argument = argument;
    thread->memory = (void *)memory;
    thread->memory_size = size;
    guest_threaded = 1;
    long tid = guest_clone(THREAD_FLAGS, tls, &thread->tid, tls, &thread->tid, thread);
    if (tid < 0) {
        guest_call(GUEST_MUNMAP, memory, (long)size, 0);
        return (int)tid;
    }
    return 0;
}

int guest_thread_start(struct guest_thread *thread, int (*body)(void *), void *argument) {
    return guest_thread_start_sized(thread, GUEST_STACK, body, argument);
}

int guest_thread_join(struct guest_thread *thread) {
    int tid;
    while ((tid = amo_load(&thread->tid)) != 0) {
        sleep_while(&thread->tid, tid);
    }
    guest_call(GUEST_MUNMAP, (long)thread->memory, (long)thread->memory_size, 0);
    return thread->result;
}

int guest_try_lock(struct guest_lock *lock) {
    int old = amo_swap(&lock->word, 1);
    if (old == 2) {
        /* Someone may be asleep: the 2 goes in again. Where the holder let go in between, this takes the lock. */
        old = amo_swap(&lock->word, 2);
    }
    return old == 0;
}

/*
 * A swap takes the lock whatever stood there, so it may put 1 over a 2. Who does that then puts a 2 in again before
 * sleeping, and holds the lock with a 2 once it has it: so the sleeper is woken by the next unlock at the latest.
 */
void guest_lock(struct guest_lock *lock) {
    if (amo_swap(&lock->word, 1) == 0) {
        return;
    }
    while (amo_swap(&lock->word, 2) != 0) {
        sleep_while(&lock->word, 2);
    }
}

void guest_unlock(struct guest_lock *lock) {
    if (amo_swap(&lock->word, 0) == 2) {
        wake(&lock->word, 1);
    }
}

void guest_barrier_begin(struct guest_barrier *barrier, int parties) {
    barrier->parties = parties;
    barrier->arrived = 0;
    barrier->round = 0;
}

int guest_barrier_wait(struct guest_barrier *barrier) {
    int round = amo_load(&barrier->round);
    if (amo_add(&barrier->arrived, 1) + 1 == barrier->parties) {
        /* Nobody comes again before the round has changed, so the count can be set first. */
        amo_swap(&barrier->arrived, 0);
        amo_add(&barrier->round, 1);
        wake(&barrier->round, ALL);
        return 1;
    }
    while (amo_load(&barrier->round) == round) {
        sleep_while(&barrier->round, round);
    }
    return 0;
}
