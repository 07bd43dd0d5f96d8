/* Scenes for the model checker, in addition to those of lock_scenes.c. In some of them a timeout expires while another
 * thread stays inside the lock; others check which waiters a signal reaches. */
#include "lock_scenes.h"

/* ---- Limits ---- */

/* So often time passes until another must have ended its call, though there are turns of the schedule. */
enum { OFTEN = 12 };

static void stays_until(int what) {
    for (int k = 0; k < OFTEN && atomic_fetch_add(&it.over, 0) < what; k++) sched_yield(), times_out();
    MUST(atomic_fetch_add(&it.over, 0) == what);
}

/* One has the lock until another was told that it is late. Where too many requests are open that one has no ticket. */
void is_late_while_one_stays_in(int self) {
    if (self == 0) {
        MUST(qolb_lock_enter(it.lock) == QOLB_GRANTED);
        atomic_store(&it.over, 1);
        stays_until(2);
        return leave();
    }
    while (!atomic_fetch_add(&it.over, 0)) sched_yield();
    if (model_open == 0) time_goes_on(MS / 2);
    MUST(qolb_lock_enter_within(it.lock, MS) == QOLB_TIMEDOUT);
    MUST(model_open || is_barging(lock_of(it.lock)) || !has_drawn(self));
    atomic_store(&it.over, 2);
}

/* Nobody signals, and the other goes on when it is told that it is late. */
void is_late_at_a_condition(int self) {
    if (self == 0) return stays_until(1);
    MUST(qolb_lock_enter(it.lock) == QOLB_GRANTED);
    MUST(qolb_cond_wait_within(&it.cond, it.lock, MS) == QOLB_TIMEDOUT);
    turn();
    leave();
    atomic_store(&it.over, 1);
}

/* Without memory one whose time is over waits on while it is too far from its turn, and no longer: the one before it
 * has the lock until then. */
void is_late_once_it_is_near(int self) {
    if (self < 2) {
        while (atomic_fetch_add(&it.over, 0) < self) sched_yield();
        MUST(qolb_lock_enter(it.lock) == QOLB_GRANTED);
        if (self) stays_until(2);
        else atomic_store(&it.over, 1);
        while (!has_drawn(2)) sched_yield();
        for (int k = 0; self == 0 && k < OFTEN; k++) sched_yield(), times_out();
        return leave();
    }
    while (!has_drawn(1)) sched_yield();
    time_goes_on(MS / 2);
    MUST(qolb_lock_enter_within(it.lock, MS) == QOLB_TIMEDOUT);
    atomic_store(&it.over, 2);
}

/* ---- Signals ---- */

/* Enters once this number of threads is counted in `has`. */
static void enters_after(qolb_lock *lock, int many) {
    for (;; sched_yield()) {
        MUST(qolb_lock_enter(lock) == QOLB_GRANTED);
        if (it.has >= many) return;
        MUST(qolb_lock_leave(lock) == QOLB_DONE);
    }
}

/* Two wait, one behind the other; there are two signals, the second by who had the first. */
void signals_in_order(int self) {
    enters_after(it.lock, self);
    it.has++;
    if (self == 2) {
        MUST(qolb_cond_signal(&it.cond) == QOLB_DONE);
        return leave();
    }
    MUST(qolb_cond_wait(&it.cond, it.lock) == QOLB_GRANTED);
    MUST(it.has++ == 3 + self);
    if (self == 0) MUST(qolb_cond_signal(&it.cond) == QOLB_DONE);
    leave();
}

/* The same, where the time of the first is over at once: a thread that is told TIMEDOUT has not taken the signal from
 * the other. */
void signals_whose_time_is_over(int self) {
    uint32_t got;
    if (self == 0) time_goes_on(2 * MS);
    enters_after(it.lock, self);
    it.has++;
    if (self == 2) {
        MUST(qolb_cond_signal(&it.cond) == QOLB_DONE);
        return leave();
    }
    got = self ? qolb_cond_wait(&it.cond, it.lock) : qolb_cond_wait_within(&it.cond, it.lock, MS);
    MUST(got == QOLB_GRANTED || (got == QOLB_TIMEDOUT && self == 0));
    if (self == 0 && got == QOLB_GRANTED) MUST(qolb_cond_signal(&it.cond) == QOLB_DONE);
    leave();
}

/* Two wait at one condition, each with a lock of its own. One lock is shut, and then there is one signal, or a
 * broadcast: it is the other's. */
static void tells_at_two_locks(int self, uint32_t (*tells)(qolb_cond *)) {
    if (self < 2) {
        qolb_lock *lock = it.locks[self];
        while (self && !atomic_fetch_add(&it.over, 0)) sched_yield();
        MUST(qolb_lock_enter(lock) == QOLB_GRANTED);
        atomic_fetch_add(&it.over, 1);
        MUST(qolb_cond_wait(&it.cond, lock) == (self ? QOLB_GRANTED : QOLB_CLOSED));
        if (self) MUST(qolb_lock_leave(lock) == QOLB_DONE);
        return;
    }
    while (atomic_fetch_add(&it.over, 0) < 2) sched_yield();
    MUST(qolb_lock_enter(it.locks[1]) == QOLB_GRANTED && qolb_lock_enter(it.locks[0]) == QOLB_GRANTED);
    MUST(qolb_lock_shut(it.locks[0]) == QOLB_DONE && tells(&it.cond) == QOLB_DONE);
    MUST(qolb_lock_leave(it.locks[1]) == QOLB_DONE);
}

void signals_at_two_locks(int self) { tells_at_two_locks(self, qolb_cond_signal); }
void broadcasts_at_two_locks(int self) { tells_at_two_locks(self, qolb_cond_broadcast); }

/* Two wait at a condition each, the second behind the first. The second is signalled, and the lock is shut before it
 * has come back: the first is told, too. */
void shuts_behind_a_signal(int self) {
    enters_after(it.lock, self);
    it.has++;
    if (self < 2) MUST(qolb_cond_wait(self ? &it.other : &it.cond, it.lock) == QOLB_CLOSED);
    else MUST(qolb_cond_signal(&it.other) == QOLB_DONE && qolb_lock_shut(it.lock) == QOLB_DONE);
}

/* Who is signalled waits again at once, while the other, which signals without the lock, is still in that call. */
void waits_again(int self) {
    if (self) {
        MUST(qolb_lock_enter(it.lock) == QOLB_GRANTED);
        for (it.has = 1; it.has < 3; it.has++) MUST(qolb_cond_wait(&it.cond, it.lock) == QOLB_GRANTED);
        return leave();
    }
    for (int k = 1; k < 3; k++) {
        enters_after(it.lock, k);
        leave();
        MUST(qolb_cond_signal(&it.cond) == QOLB_DONE);
    }
}

/* Each signals to the other, and waits for it. */
void signals_and_waits(int self) {
    MUST(qolb_lock_enter(it.lock) == QOLB_GRANTED);
    for (int k = 0; k < 2; k++) {
        while (it.has % 2 != self) MUST(qolb_cond_wait(&it.cond, it.lock) == QOLB_GRANTED);
        it.has++;
        MUST(qolb_cond_signal(&it.cond) == QOLB_DONE);
    }
    leave();
}
