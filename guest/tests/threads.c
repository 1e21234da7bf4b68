/* Four threads with a lock, a barrier and variables of their own. */
#include <errno.h>
#include <guest.h>
#include <stdio.h>
#include <stdlib.h>

#define THREADS 4
#define ROUNDS 5
#define TURNS 50

static struct guest_lock lock;
static struct guest_barrier barrier;
static long sum;
static int last_ones;
static int counts[ROUNDS];
static _Thread_local int own = 5;

static int work(void *argument) {
    int me = (int)(long)argument;
    own += me;
    errno = me;
    for (int round = 0; round < ROUNDS; round++) {
        for (int turn = 0; turn < TURNS; turn++) {
            guest_lock(&lock);
            sum += me;
            guest_unlock(&lock);
            __atomic_fetch_add(&counts[round], 1, __ATOMIC_RELAXED);
            free(malloc(24));
        }
        int last = guest_barrier_wait(&barrier);
        __atomic_fetch_add(&last_ones, last, __ATOMIC_RELAXED);
        /* Behind the barrier each has counted. */
        if (counts[round] != THREADS * TURNS) {
            return -1;
        }
    }
    return own * 100 + errno;
}

int main(void) {
    struct guest_thread threads[THREADS];
    guest_barrier_begin(&barrier, THREADS);
    for (long k = 0; k < THREADS; k++) {
        int told = guest_thread_start(&threads[k], work, (void *)(k + 1));
        if (told != 0) {
            printf("thread %ld isn't started: %d\n", k, told);
            return 1;
        }
    }
    for (int k = 0; k < THREADS; k++) {
        printf("thread %d answers %d\n", k, guest_thread_join(&threads[k]));
    }
    printf("sum %ld of %d, last ones %d, own %d\n", sum, ROUNDS * TURNS * (1 + 2 + 3 + 4), last_ones, own);
    return 0;
}
