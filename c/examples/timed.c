/* A thread waits for a lock for at most 1 ms. If it times out, it does other work and tries again. Prints 1. */
#include <pthread.h>
#include <qolb.h>
#include <sched.h>
#include <stdatomic.h>
#include <stdio.h>
#include <stdlib.h>

enum { AT_MOST = 1000000 }; /* nanoseconds */

static qolb_lock lock = QOLB_LOCK_INIT;
static long turns; /* protected by the lock */
static atomic_long other_work;

static void *work(void *unused) {
    for (;;) {
        uint32_t got = qolb_lock_enter_within(&lock, AT_MOST);
        if (got == QOLB_GRANTED) break;
        if (got != QOLB_TIMEDOUT) abort();
        atomic_fetch_add(&other_work, 1); /* the request is withdrawn, so nobody waits for this thread */
    }
    turns++;
    qolb_lock_leave(&lock);
    return unused;
}

int main(void) {
    pthread_t thread;
    if (qolb_lock_enter(&lock) != QOLB_GRANTED) return 1;
    if (pthread_create(&thread, NULL, work, NULL) != 0) return 1;
    while (!atomic_load(&other_work)) sched_yield(); /* a long critical section */
    qolb_lock_leave(&lock);
    pthread_join(thread, NULL);
    qolb_lock_destroy(&lock);
    printf("%ld\n", turns);
    return turns != 1;
}
