/* A program for probes.gdb, which stops the program at each probe of the library (../src/probes.h). The threads of this
 * program wait one at a time: one times out, one is granted a line, one is notified that the line is closed, and one
 * waits for a lock. The line has the label 7. Prints only errors. */
#define _GNU_SOURCE
#include <qolb.h>

#include "waiters.h"

static qolb_node nodes[2];
static qolb_lock lock = QOLB_LOCK_INIT;
static atomic_int waits;

static void *is_late(void *unused) {
    MUST(qolb_acquire_within(&nodes[1], 20 * MS), QOLB_TIMEDOUT);
    return unused;
}

static void *is_granted(void *unused) {
    about_to_wait(&waits);
    MUST(qolb_acquire(&nodes[1]), QOLB_GRANTED);
    MUST(qolb_deqolb(&nodes[1]), QOLB_DONE);
    return unused;
}

static void *is_closed(void *unused) {
    about_to_wait(&waits);
    MUST(qolb_acquire(&nodes[1]), QOLB_CLOSED);
    return unused;
}

static void *enters(void *unused) {
    about_to_wait(&waits);
    MUST(qolb_lock_enter(&lock), QOLB_GRANTED);
    MUST(qolb_lock_leave(&lock), QOLB_DONE);
    return unused;
}

/* Runs a thread until it ends. Once the thread sleeps, releases what it waits for. */
static void run(void *(*thread)(void *), void (*let_go)(void)) {
    pthread_t id;
    atomic_store(&waits, 0);
    MUST(pthread_create(&id, NULL, thread, NULL), 0);
    if (let_go) {
        until_asleep(&waits);
        let_go();
    }
    MUST(pthread_join(id, NULL), 0);
}

static void release(void) { MUST(qolb_deqolb(&nodes[0]), QOLB_DONE); }
static void shut(void) { MUST(qolb_shut(&nodes[0]), QOLB_DONE); }
static void leave(void) { MUST(qolb_lock_leave(&lock), QOLB_DONE); }

int main(void) {
    static const qolb_bytes zeros;
    alarm(600);
    WANT(qolb_open(QOLB_DEFAULT, 7, 2, QOLB_NO_LEASE, &zeros, nodes, 2), QOLB_DONE);
    WANT(qolb_acquire(&nodes[0]), QOLB_GRANTED);
    run(is_late, NULL);
    release(); /* this passes the withdrawn request */
    WANT(qolb_acquire(&nodes[0]), QOLB_GRANTED);
    run(is_granted, release);
    WANT(qolb_acquire(&nodes[0]), QOLB_GRANTED);
    run(is_closed, shut);
    WANT(qolb_lock_enter(&lock), QOLB_GRANTED);
    run(enters, leave);
    WANT(qolb_lock_destroy(&lock), QOLB_DONE);
    return 0;
}
