/* Conditions of locks: waiting, signalling, and notifying all waiters when the lock is shut (lock.h). This file is
 * tested and model-checked, but not proved.
 *
 * A thread that waits on a condition has a `struct waiter` on its stack, which is in two lists. The list of the
 * condition is protected by a guard, and a signal removes the first waiter from it. The list of the lock is used only
 * by the holder, and a shut notifies all waiters in it. The thread sleeps on the word `told` of its struct, which is
 * set once.
 *
 * The lock must not be destroyed while a thread waits on a condition. Therefore the lock counts a thread that waits on
 * a condition among the threads without a ticket, from before the thread leaves the lock until it has a ticket again. A
 * waiter that is notified of a shut also requests the lock, and gets the result CLOSED when its turn comes, after the
 * shut is complete. */
#include "entries.h"

enum { NOTHING, SIGNALLED, SHUT };

struct waiter {
    struct link link;       /* in the condition's list; next is NULL once the waiter is taken out */
    struct waiter *beside;  /* the next waiter in the lock's list, whose order does not matter */
    struct waiter **before; /* what points to this waiter in the lock's list */
    atomic_uint told;
};

/* ---- The lists ---- */

static struct link **waiters_of(qolb_cond *cond) { return (struct link **)&cond->own; }

static void stand_at(qolb_cond *cond, struct lock *lock, struct waiter *me) {
    *me = (struct waiter){.beside = lock->waits, .before = &lock->waits};
    if (me->beside) me->beside->before = &me->beside;
    lock->waits = me;
    INVARIANT(*me->before == me && atomic_load(&me->told) == NOTHING);
    atomic_uint *guard = guard_at((uintptr_t)cond);
    put_last(waiters_of(cond), &me->link);
    return_guard(guard);
}

/* Takes the waiter out of the condition's list. Returns whether it was still in the list. */
static int stand_no_more(qolb_cond *cond, struct waiter *me) {
    atomic_uint *guard = guard_at((uintptr_t)cond);
    int stood = me->link.next != NULL;
    if (stood) {
        struct link *it = &me->link;
        while (it->next != &me->link) it = it->next;
        take_behind(waiters_of(cond), it);
        me->link.next = NULL;
    }
    return_guard(guard);
    return stood;
}

/* Takes the waiter, which holds the lock again, out of the lock's list. */
static void stand_no_more_in(struct waiter *me) {
    *me->before = me->beside;
    if (me->beside) me->beside->before = me->before;
}

/* ---- Waiting ---- */

/* Tells a waiter, and wakes it. Returns whether the waiter had not been told before; if so, it may no longer exist. */
static int tell_waiter(struct waiter *waiter, unsigned what) {
    unsigned nothing = NOTHING;
    atomic_uint *word = &waiter->told;
    if (!atomic_compare_exchange_strong(word, &nothing, what)) return 0;
    qolb_wake_at_(word, 1);
    return 1;
}

static unsigned await_word(struct waiter *me, const struct limit *limit) {
    uint64_t time = 1;
    unsigned told;
    while (!(told = atomic_load(&me->told)) && (time = left(limit))) qolb_sleep_at_(&me->told, NOTHING, time);
    return told;
}

uint32_t qolb_cond_wait_at_(qolb_cond *cond, struct lock *lock, struct turn *at, uint64_t nanoseconds) {
    struct limit limit = from_now(nanoseconds); /* it begins now, because leaving may call callbacks of tasks */
    struct waiter me;
    stand_at(cond, lock, &me);
    atomic_fetch_add(&lock->without_ticket, 1);
    qolb_leave_at_(lock, at);
    int stood = await_word(&me, &limit) != SIGNALLED && stand_no_more(cond, &me);
    INVARIANT(!me.link.next);
    uint32_t got = qolb_enter_at_(lock, at, FOR_EVER, 1);
    if (got != QOLB_GRANTED) return got;
    INVARIANT(*me.before == &me);
    stand_no_more_in(&me);
    return stood ? (uint32_t)QOLB_TIMEDOUT : got;
}

enum qolb_result qolb_cond_wait_within(qolb_cond *cond, qolb_lock *of, uint64_t nanoseconds) {
    struct lock *lock = lock_of(of);
    struct turn beyond, *at = qolb_take_turn_(lock, &beyond);
    if (!at) return QOLB_MISUSE;
    struct turn turn = *at; /* not in the table, because a callback of a task may enter other locks */
    at->ticket = (struct qolb_ticket){0};
    uint32_t got = qolb_cond_wait_at_(cond, lock, &turn, nanoseconds);
    if (got != QOLB_GRANTED && got != QOLB_TIMEDOUT) return got;
    at = qolb_place_for_(lock, &beyond);
    at->ticket = turn.ticket;
    qolb_keep_turn_(lock, at, &beyond);
    return got;
}

enum qolb_result qolb_cond_wait(qolb_cond *cond, qolb_lock *lock) {
    return qolb_cond_wait_within(cond, lock, FOR_EVER);
}

/* ---- Telling ---- */

static uint32_t signal_some(qolb_cond *cond, int all) {
    struct link **list = waiters_of(cond);
    if (!last_of(list)) return QOLB_DONE;
    atomic_uint *guard = guard_at((uintptr_t)cond);
    for (int told = 0; last_of(list) && (all || !told);) {
        struct waiter *first = (struct waiter *)take_behind(list, last_of(list));
        first->link.next = NULL;
        told = tell_waiter(first, SIGNALLED);
    }
    return_guard(guard);
    return QOLB_DONE;
}

enum qolb_result qolb_cond_signal(qolb_cond *cond) { return signal_some(cond, 0); }

enum qolb_result qolb_cond_broadcast(qolb_cond *cond) { return signal_some(cond, 1); }

/* After this, the holder only shuts the lock. A waiter that is told requests the lock behind the holder, and so it
 * exists until the holder has shut the lock. */
void qolb_tell_shut_(struct lock *lock) {
    for (struct waiter *it = lock->waits; it; it = it->beside) tell_waiter(it, SHUT);
    lock->waits = NULL;
}
