/* Tests that a thread which is cancelled while it waits still completes the wait: the thread is granted the line or
 * times out, and ends at its next cancellation point. Therefore the queue never contains a request of a thread that has
 * ended, and the line is handed over. Prints only errors. */
#define _POSIX_C_SOURCE 200809L
#include "want.h"
#include <pthread.h>
#include <qolb.h>
#include <sched.h>
#include <stdatomic.h>
#include <stdio.h>
#include <time.h>
#include <unistd.h>

enum { FOR_EVER, LONG, SHORT };

struct waiter {
    _Alignas(QOLB_NODE_ALIGN) qolb_node node;
    int how;
    uint32_t got, released;
    atomic_int is_cancelled;
};

static void nap(long milliseconds) {
    struct timespec time = {0, milliseconds * 1000000};
    nanosleep(&time, NULL);
}

static void *waits(void *argument) {
    struct waiter *me = argument;
    me->got = me->how == FOR_EVER ? qolb_acquire(&me->node)
                                  : qolb_acquire_within(&me->node, me->how == LONG ? 60000000000 : 80000000);
    if (me->got == QOLB_GRANTED) me->released = qolb_deqolb(&me->node);
    while (!me->is_cancelled) sched_yield(); /* on a busy machine it may time out before it is cancelled */
    pthread_testcancel();
    return NULL;
}

/* The waiter is cancelled while another node holds the line. With `busy`, the waiter's node has a withdrawn request
 * that no release has passed yet. */
static int cancelled(uint32_t kind, int how, int busy) {
    qolb_bytes zeros = {{0}};
    qolb_node n[3] = {{0}};
    struct waiter waiter = {{0}, how, 99, 99, 0};
    pthread_t id;
    void *told = NULL;
    WANT(qolb_open(kind, 1, 3, QOLB_NO_LEASE, &zeros, n, 3), QOLB_DONE);
    WANT(qolb_acquire(&n[0]), QOLB_GRANTED);
    if (busy) WANT(qolb_try(&n[1]), QOLB_BUSY);
    waiter.node = qolb_move(&n[1]);
    WANT(pthread_create(&id, NULL, waits, &waiter), 0);
    nap(20); /* now it waits, or will be cancelled before it does */
    WANT(pthread_cancel(id), 0);
    waiter.is_cancelled = 1;
    if (how == SHORT) WANT(pthread_join(id, &told), 0);
    nap(20);
    WANT(qolb_deqolb(&n[0]), QOLB_DONE);
    WANT(qolb_acquire_within(&n[2], 30000000000), QOLB_GRANTED);
    if (how != SHORT) {
        /* It has had its turn, or will have it after this one. */
        WANT(qolb_deqolb(&n[2]), QOLB_DONE);
        WANT(pthread_join(id, &told), 0);
        WANT(qolb_acquire_within(&n[2], 30000000000), QOLB_GRANTED);
    }
    WANT(told == PTHREAD_CANCELED, 1);
    WANT(waiter.got, how == SHORT ? QOLB_TIMEDOUT : QOLB_GRANTED);
    WANT(waiter.released, how == SHORT ? 99 : QOLB_DONE);
    WANT(qolb_state(&waiter.node), how == SHORT ? QOLB_STATE_ROLLED : QOLB_STATE_IDLE);
    WANT(qolb_deqolb(&n[2]), QOLB_DONE);
    WANT(qolb_acquire(&waiter.node), QOLB_GRANTED);
    WANT(qolb_deqolb(&waiter.node), QOLB_DONE);
    WANT(qolb_node_free(&n[0]) + qolb_node_free(&n[2]) + qolb_node_free(&waiter.node), QOLB_DONE);
    return 0;
}

int main(void) {
    alarm(300); /* if a thread that has ended still holds the line, other threads wait for ever */
    for (uint32_t kind = 0; kind < QOLB_KINDS; kind++)
        for (int how = FOR_EVER; how <= SHORT; how++)
            if (cancelled(kind, how, 0) || cancelled(kind, how, 1)) return 1;
    return 0;
}
