/* A program for the thread sanitizer, and for helgrind and drd of valgrind. Its argument selects one of several ways of
 * using shared data. In the correct ways, the data are protected by a lock for threads and for a task, or by a line
 * whose waiter is notified through an eventfd or whose nodes give up; then the tools must report nothing. In the
 * incorrect ways the tools must report a race.
 *
 *   build/races WAY     WAY is one of the numbers below
 *
 * The second thread uses the data after the first thread. The tools can see this order only from the lock or the
 * condition. */
#define _GNU_SOURCE
#include <qolb.h>
#include <stdlib.h>
#include <sys/eventfd.h>

#include "waiters.h"

enum {
    GUARDED,
    BY_A_TASK,
    BY_A_NODE,
    BY_LATE_NODES,
    BY_TWO_LOCKS,
    AFTER_LEAVING,
    AFTER_BUSY,
    AFTER_LATE,
    AFTER_A_SIGNAL,
    WAYS
};

static qolb_lock lock = QOLB_LOCK_INIT, other = QOLB_LOCK_INIT;
static qolb_cond cond = QOLB_COND_INIT;
enum { NODES = 4 };
static qolb_node nodes[NODES];
static int way, is_ready, data;
/* Set once the first thread has done its part. Its accesses are relaxed, so they order nothing. */
static atomic_int done;

static void until_done(void) {
    while (!atomic_load_explicit(&done, memory_order_relaxed)) usleep(1000);
}

static void enter(qolb_lock *it) { MUST(qolb_lock_enter(it), QOLB_GRANTED); }
static void leave(qolb_lock *it) { MUST(qolb_lock_leave(it), QOLB_DONE); }

/* Keeps the lock for a while if the second thread is to wait, or to be answered BUSY or TIMEDOUT. */
static void *first(void *unused) {
    if (way == BY_A_NODE) {
        MUST(qolb_acquire(&nodes[0]), QOLB_GRANTED);
        data++;
        atomic_store_explicit(&done, 1, memory_order_relaxed);
        usleep(200000);
        MUST(qolb_deqolb(&nodes[0]), QOLB_DONE);
        return unused;
    }
    enter(&lock);
    if (way != AFTER_LEAVING && way != AFTER_A_SIGNAL) data++;
    is_ready = 1;
    if (way == GUARDED || way == AFTER_A_SIGNAL) MUST(qolb_cond_signal(&cond), QOLB_DONE);
    if (way == BY_A_TASK || way == AFTER_BUSY || way == AFTER_LATE) {
        atomic_store_explicit(&done, 1, memory_order_relaxed);
        usleep(200000);
    }
    leave(&lock);
    if (way == AFTER_LEAVING || way == AFTER_A_SIGNAL) data++;
    atomic_store_explicit(&done, 1, memory_order_relaxed);
    return unused;
}

/* Both wait for an eventfd, which tells the tools nothing. */
static void task_adds(int fd) {
    static qolb_task task;
    eventfd_t count;
    uint32_t got = qolb_task_enter_fd(&task, &lock, fd);
    while (got == QOLB_WAITING) {
        MUST(eventfd_read(fd, &count), 0);
        got = qolb_task_poll(&task);
    }
    MUST(got, QOLB_GRANTED);
    data++;
    MUST(qolb_task_leave(&task), QOLB_DONE);
}

static void node_adds(int fd) {
    eventfd_t count;
    uint32_t got = qolb_enqolb(&nodes[1]);
    if (got == QOLB_QUEUED) got = qolb_notify_fd(&nodes[1], fd);
    while (got == QOLB_WAITING) {
        MUST(eventfd_read(fd, &count), 0);
        got = qolb_poll(&nodes[1]);
    }
    MUST(got, QOLB_GRANTED);
    data++;
    MUST(qolb_notify_off(&nodes[1]), QOLB_DONE);
    MUST(qolb_deqolb(&nodes[1]), QOLB_DONE);
}

static void *second(void *unused) {
    int fd;
    switch (way) {
    case BY_A_TASK:
    case BY_A_NODE:
        fd = eventfd(0, 0);
        until_done();
        (way == BY_A_TASK ? task_adds : node_adds)(fd);
        close(fd);
        break;
    case GUARDED:
    case AFTER_A_SIGNAL:
        enter(&lock);
        while (!is_ready) MUST(qolb_cond_wait(&cond, &lock), QOLB_GRANTED);
        leave(&lock);
        until_done();
        enter(&lock);
        data++;
        leave(&lock);
        break;
    case BY_TWO_LOCKS:
        until_done();
        enter(&other);
        data++;
        leave(&other);
        break;
    case AFTER_LEAVING:
        until_done();
        enter(&lock);
        data++;
        leave(&lock);
        break;
    case AFTER_BUSY:
        until_done();
        MUST(qolb_lock_try(&lock), QOLB_BUSY);
        data++;
        break;
    case AFTER_LATE:
        until_done();
        MUST(qolb_lock_enter_within(&lock, 1000), QOLB_TIMEDOUT);
        data++;
        break;
    }
    return unused;
}

/* Threads end at the same time, one of them while it holds a lock. Nothing is used wrongly. */
static void *ends(void *with) {
    static qolb_lock kept = QOLB_LOCK_INIT;
    enter(&other);
    leave(&other);
    if (with) enter(&kept);
    return with;
}

static void end_together(void) {
    enum { MANY = 6 };
    pthread_t ids[MANY];
    for (int k = 0; k < MANY; k++) MUST(pthread_create(&ids[k], NULL, ends, k == 0 ? &way : NULL), 0);
    for (int k = 0; k < MANY; k++) pthread_join(ids[k], NULL);
}

/* Times out again and again, so that releases pass withdrawn requests, one after the other. */
static void *is_late_often(void *node) {
    for (int k = 0; k < 100; k++) {
        if (qolb_acquire_within(node, k % 2 ? UINT64_MAX : 20000) != QOLB_GRANTED) continue;
        data++;
        usleep(100);
        MUST(qolb_deqolb(node), QOLB_DONE);
    }
    return NULL;
}

static void are_late_often(void) {
    pthread_t ids[NODES];
    for (int k = 0; k < NODES; k++) MUST(pthread_create(&ids[k], NULL, is_late_often, &nodes[k]), 0);
    for (int k = 0; k < NODES; k++) pthread_join(ids[k], NULL);
    data = 2;
}

static void use_in_turn(void) {
    pthread_t ids[2];
    MUST(pthread_create(&ids[0], NULL, second, NULL), 0);
    MUST(pthread_create(&ids[1], NULL, first, NULL), 0);
    for (int k = 0; k < 2; k++) pthread_join(ids[k], NULL);
}

int main(int argc, char **argv) {
    static const qolb_bytes zeros;
    way = argc > 1 ? atoi(argv[1]) : GUARDED;
    if (way < GUARDED || way >= WAYS) return 2;
#ifdef ANNOTATE_BENIGN_RACE_SIZED
    ANNOTATE_BENIGN_RACE_SIZED(&done, sizeof done, "no atomic to valgrind");
#endif
    alarm(600);
    MUST(qolb_open(QOLB_DEFAULT, 1, NODES, QOLB_NO_LEASE, &zeros, nodes, NODES), QOLB_DONE);
    if (way == BY_LATE_NODES) are_late_often();
    else use_in_turn();
    end_together();
    WANT(data, 2);
    WANT(qolb_lock_destroy(&lock), QOLB_DONE);
    WANT(qolb_lock_destroy(&other), QOLB_DONE);
    for (int k = 0; k < NODES; k++) WANT(qolb_node_free(&nodes[k]), QOLB_DONE);
    return 0;
}
