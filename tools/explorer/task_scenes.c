/* The actions of tasks in the scenes of the lock (lock_scenes.c). Each task belongs to a thread. This thread makes the
 * calls of the task, except for those that other threads make on the task's behalf. */
#include "lock_scenes.h"

/* ---- A task's calls ---- */

static void tells(void *task) {
    int k = (int)(intptr_t)task;
    it.told[k].calls++;
    atomic_store(&it.told[k].word, 1);
    qolb_wake_at_(&it.told[k].word, 1);
}

/* Sleeps until the task's call was made; 0 if that was not in time. */
static int is_told(int k, uint64_t time) {
    if (atomic_load(&it.told[k].word) == 0) qolb_sleep_at_(&it.told[k].word, 0, time);
    return time == FOR_EVER || atomic_load(&it.told[k].word);
}

static uint32_t task_asks(int k) {
    atomic_store(&it.told[k].word, 0);
    begins_call();
    uint32_t got = qolb_task_enter(&it.task[k], it.lock, tells, (void *)(intptr_t)k);
    if (got == QOLB_CLOSED) ends_call();
    return got;
}

static void task_gives_up(int k) {
    uint32_t got = qolb_task_cancel(&it.task[k]);
    MUST((got == QOLB_WITHDRAWN || got == QOLB_CLOSED) && it.told[k].calls <= 1);
    MUST(qolb_task_cancel(&it.task[k]) == QOLB_DONE && qolb_task_poll(&it.task[k]) == QOLB_MISUSE);
    it.told[k].calls = 0;
    ends_call();
}

/* The answer of a task that waits. */
static uint32_t task_waits(int k, uint64_t time) {
    uint32_t got = QOLB_WAITING;
    while (got == QOLB_WAITING) {
        while (!is_told(k, time))
            if (time != FOR_EVER) return task_gives_up(k), QOLB_TIMEDOUT;
        atomic_store(&it.told[k].word, 0);
        got = qolb_task_poll(&it.task[k]);
    }
    MUST(it.told[k].calls-- == 1);
    if (got == QOLB_GRANTED) return got;
    MUST(got == QOLB_CLOSED && qolb_task_cancel(&it.task[k]) == QOLB_DONE);
    ends_call();
    return got;
}

static uint32_t task_enters(int k, uint64_t time) {
    uint32_t got = task_asks(k);
    return got == QOLB_WAITING ? task_waits(k, time) : got;
}

static void task_turn(int k) {
    MUST(qolb_task_holds(&it.task[k]) && !qolb_lock_is_mine(it.lock) && qolb_lock_leave(it.lock) == QOLB_MISUSE);
    MUST(qolb_task_cancel(&it.task[k]) == QOLB_MISUSE);
    turn();
    MUST(qolb_task_leave(&it.task[k]) == QOLB_DONE && !qolb_task_holds(&it.task[k]));
}

/* ---- Entering, and giving up ---- */

void by_task(int self) {
    MUST(task_enters(self, FOR_EVER) == QOLB_GRANTED);
    task_turn(self);
}

void by_task_twice(int self) { by_task(self), by_task(self); }

static void by_task_or_gives_up(int self) {
    if (task_enters(self, MS) == QOLB_GRANTED) task_turn(self);
}

void one_task_gives_up(int self) { self == 1 ? by_task_or_gives_up(self) : by_task(self); }

void a_task_beside_threads(int self) { self == 1 ? by_task(self) : enters(self); }

void tasks_beside_a_thread(int self) { self ? by_task(self) : enters(self); }

void a_task_beside_threads_twice(int self) { a_task_beside_threads(self), a_task_beside_threads(self); }

void tasks_beside_a_thread_twice(int self) { tasks_beside_a_thread(self), tasks_beside_a_thread(self); }

/* The first lets the others go on in its turn. */
void a_task_beside_one_that_yields(int self) { self == 0 ? enters_with(3) : a_task_beside_threads(self); }

void a_task_beside_one_that_yields_once(int self) { self == 0 ? enters_with(1) : a_task_beside_threads(self); }

void tasks_beside_one_that_yields(int self) { self == 0 ? enters_with(3) : by_task(self); }

void a_task_beside_one_that_stays(int self) { self == 1 ? by_task(self) : one_stays(self); }

void a_task_gives_up_between_threads(int self) { self == 1 ? by_task_or_gives_up(self) : enters(self); }

void a_task_gives_up_beside_one_that_yields(int self) {
    self == 0 ? enters_with(3) : a_task_gives_up_between_threads(self);
}

void a_task_gives_up_before_one_beside_one_that_yields(int self) {
    self == 0 ? enters_with(3) : self == 1 ? by_task_or_gives_up(self) : by_task(self);
}

void a_task_gives_up_and_asks_again(int self) {
    if (self == 1) by_task_or_gives_up(self);
    a_task_beside_threads(self);
}

void a_thread_is_late_between_tasks(int self) { self == 1 ? is_late(self) : by_task(self); }

void a_thread_is_late_before_a_task(int self) {
    self == 2 ? by_task(self) : self == 1 ? is_late(self) : enters_with(3);
}

void a_thread_is_late_or_a_task_waits(int self) { self == 2 ? by_task(self) : is_late(self); }

void both_give_up(int self) { self == 0 ? enters(self) : self == 1 ? by_task_or_gives_up(self) : is_late(self); }

void one_tries_beside_a_task(int self) { self == 2 ? by_task(self) : tries(self); }

/* No ticket was drawn: the task may ask again. */
void a_task_finds_no_memory(int self) {
    if (self == 0) return enters_with(3);
    uint32_t got = task_asks(1);
    while (got == QOLB_NO_MEMORY) {
        MUST(qolb_task_cancel(&it.task[1]) == QOLB_DONE);
        sched_yield();
        got = task_asks(1);
    }
    MUST(got == QOLB_GRANTED);
    task_turn(1);
}

/* ---- Two tasks of thread 0 ---- */

static void second_task(int self, uint32_t got, int gives_up) {
    is_second(self, 1);
    if (got == QOLB_WAITING && gives_up) {
        task_gives_up(THREADS);
    } else {
        MUST(got == QOLB_GRANTED || task_waits(THREADS, FOR_EVER) == QOLB_GRANTED);
        task_turn(THREADS);
    }
    is_second(self, 0);
}

static void two_tasks(int self, int first_gives_up, int second_gives_up) {
    if (self) return enters(self);
    uint32_t first = task_asks(0);
    if (first == QOLB_GRANTED) task_turn(0);
    is_second(self, 1);
    uint32_t second = task_asks(THREADS);
    is_second(self, 0);
    if (second == QOLB_GRANTED) second_task(self, second, 0);
    if (first == QOLB_WAITING && first_gives_up) task_gives_up(0);
    else if (first == QOLB_WAITING) MUST(task_waits(0, FOR_EVER) == QOLB_GRANTED), task_turn(0);
    if (second == QOLB_WAITING) second_task(self, second, second_gives_up);
}

void two_tasks_of_one(int self) { two_tasks(self, 0, 0); }
void first_of_two_gives_up(int self) { two_tasks(self, 1, 0); }
void second_of_two_gives_up(int self) { two_tasks(self, 0, 1); }
void both_of_two_give_up(int self) { two_tasks(self, 1, 1); }

/* Thread 0 has a turn, and four tasks behind it: the third gives up while it is far, and the fourth once it is near, in
 * the turn of the second. Another waits behind all of them. */
void gives_up_far_before_one_near(int self) {
    if (self) {
        while (!atomic_fetch_add(&it.over, 0)) sched_yield();
        return enters(self);
    }
    MUST(qolb_lock_enter(it.lock) == QOLB_GRANTED);
    for (int k = 0; k <= THREADS; k++)
        MUST(qolb_task_enter(&it.task[k], it.lock, tells, (void *)(intptr_t)k) == QOLB_WAITING);
    atomic_store(&it.over, 1);
    while (!is_known(1)) sched_yield();
    MUST(qolb_task_cancel(&it.task[2]) == QOLB_WITHDRAWN);
    leave();
    for (int k = 0; k < 2; k++) {
        MUST(task_waits(k, FOR_EVER) == QOLB_GRANTED);
        if (k == 1) MUST(qolb_task_cancel(&it.task[3]) == QOLB_WITHDRAWN);
        MUST(qolb_task_leave(&it.task[k]) == QOLB_DONE);
    }
}

/* ---- Shutting, closing and freeing ---- */

static void task_until_shut(int self, int shuts) {
    uint32_t got = task_enters(self, FOR_EVER);
    if (got == QOLB_CLOSED) return;
    MUST(got == QOLB_GRANTED);
    turn();
    if (shuts) it.shut = 1;
    MUST((shuts ? qolb_task_shut : qolb_task_leave)(&it.task[self]) == QOLB_DONE);
}

void tasks_until_shut(int self) { self == 0 ? (void)enters_to_shut(0) : task_until_shut(self, 0); }
void a_task_until_shut(int self) { self == 2 ? task_until_shut(self, 0) : (void)enters_to_shut(self); }
void a_task_shuts(int self) { self == 1 ? task_until_shut(self, 1) : (void)enters_to_shut(self + 1); }

static void frees_if_last_task(int self) {
    int last = --it.users == 0;
    MUST(qolb_task_leave(&it.task[self]) == QOLB_DONE);
    if (!last) return;
    MUST(qolb_lock_destroy(it.lock) == QOLB_DONE);
    free_lock();
}

void last_task_frees(int self) {
    MUST(task_enters(self, FOR_EVER) == QOLB_GRANTED);
    turn();
    frees_if_last_task(self);
}

void last_of_both_frees(int self) { self == 1 ? last_task_frees(self) : last_frees(self); }

/* One frees the lock as soon as it may, while the task of another, which waits, gives up and makes no access to it
 * afterwards. */
void one_frees_beside_a_task(int self) {
    if (self) {
        uint32_t got = task_asks(1);
        atomic_store(&it.over, 1);
        return got == QOLB_GRANTED ? task_turn(1) : task_gives_up(1);
    }
    MUST(qolb_lock_enter(it.lock) == QOLB_GRANTED);
    while (!atomic_fetch_add(&it.over, 0)) sched_yield();
    leave();
    while (qolb_lock_destroy(it.lock) != QOLB_DONE) sched_yield();
    free_lock();
}

/* The task polls all the time, called or not. */
void last_that_polls_frees(int self) {
    if (self != 1) return last_frees(self);
    uint32_t got = task_asks(1);
    while (got == QOLB_WAITING) {
        sched_yield();
        got = qolb_task_poll(&it.task[1]);
    }
    MUST(got == QOLB_GRANTED && it.told[1].calls <= 1);
    it.told[1].calls = 0;
    turn();
    frees_if_last_task(1);
}

/* The task polls once before it is called. */
void a_task_polls_early(int self) {
    if (self != 1) return enters_with(self == 0 ? 3 : 0);
    uint32_t got = task_asks(1);
    if (got == QOLB_WAITING) got = qolb_task_poll(&it.task[1]);
    if (got == QOLB_WAITING) got = task_waits(1, FOR_EVER);
    MUST(got == QOLB_GRANTED && it.told[1].calls <= 1);
    it.told[1].calls = 0;
    task_turn(1);
}

/* One tries to close the lock once a task waits, of whom the holder knows. */
void one_closes_beside_a_task(int self) {
    if (self == 2) {
        while (!atomic_fetch_add(&it.over, 0)) sched_yield();
        uint32_t got = qolb_lock_destroy(it.lock);
        MUST(got == QOLB_DONE || got == QOLB_BUSY);
    } else if (self == 1) {
        while (qolb_lock_try(it.lock) != QOLB_BUSY) leave(), sched_yield();
        uint32_t got = task_asks(1);
        atomic_fetch_add(&it.over, 1);
        MUST(got == QOLB_GRANTED || task_waits(1, FOR_EVER) == QOLB_GRANTED);
        task_turn(1);
    } else {
        begins_call();
        MUST(qolb_lock_enter(it.lock) == QOLB_GRANTED);
        turn();
        while (!atomic_fetch_add(&it.over, 0)) sched_yield();
        leave();
    }
}

/* Who is in tries to close the lock while a thread and a task wait, or are about to. */
void closes_while_both_wait(int self) {
    if (self == 1) return by_task(self);
    begins_call();
    MUST(qolb_lock_enter(it.lock) == QOLB_GRANTED);
    if (self == 0) MUST(qolb_lock_destroy(it.lock) == QOLB_BUSY);
    turn();
    leave();
}

/* Two free a lock while tasks of the third wait at another, whose entries are in the same lists. */
void last_frees_beside_entries(int self) {
    if (self != 2) {
        while (!atomic_fetch_add(&it.over, 0)) sched_yield();
        return last_frees(0);
    }
    MUST(qolb_lock_enter(it.locks[1]) == QOLB_GRANTED);
    for (int k = 2; k <= THREADS; k++)
        MUST(qolb_task_enter(&it.task[k], it.locks[1], tells, (void *)(intptr_t)k) == QOLB_WAITING);
    it.users--;
    atomic_store(&it.over, 1);
    while (!had_turns(2)) sched_yield();
    for (int k = 2; k <= THREADS; k++) MUST(qolb_task_cancel(&it.task[k]) == QOLB_WITHDRAWN);
    MUST(qolb_lock_leave(it.locks[1]) == QOLB_DONE);
}

/* As late_at_a_younger_lock, with a task. */
void a_task_comes_to_a_younger_lock(int self) {
    if (self == 0) return enters_with(1);
    if (self == 2) {
        while (!atomic_fetch_add(&it.over, 0)) sched_yield();
        uint32_t got = task_asks(2);
        atomic_store(&it.over, 2);
        MUST(got == QOLB_GRANTED || task_waits(2, FOR_EVER) == QOLB_GRANTED);
        return task_turn(2);
    }
    enters(self);
    while (!had_turns(2) || qolb_lock_destroy(it.lock) != QOLB_DONE) sched_yield();
    MUST(qolb_lock_enter(it.lock) == QOLB_GRANTED);
    atomic_store(&it.over, 1);
    while (atomic_fetch_add(&it.over, 0) < 2) sched_yield();
    sched_yield();
    leave();
}

/* A task shuts the lock, and tells a thread that waits at a condition. */
void a_task_shuts_beside_a_waiter(int self) {
    if (self == 1) {
        MUST(qolb_lock_enter(it.lock) == QOLB_GRANTED);
        it.has = 1;
        while (qolb_cond_wait(&it.cond, it.lock) == QOLB_GRANTED) continue;
        return;
    }
    for (int waits = 0; !waits;) {
        MUST(task_enters(0, FOR_EVER) == QOLB_GRANTED);
        waits = it.has;
        MUST((waits ? qolb_task_shut : qolb_task_leave)(&it.task[0]) == QOLB_DONE);
        if (!waits) sched_yield();
    }
}

/* A task signals to a thread that waits at a condition. */
void a_task_signals(int self) {
    if (self == 2) return enters(self);
    if (self == 0) {
        MUST(task_enters(self, FOR_EVER) == QOLB_GRANTED);
        it.has = 1;
        qolb_cond_signal(&it.cond);
        return task_turn(self);
    }
    MUST(qolb_lock_enter(it.lock) == QOLB_GRANTED);
    while (!it.has) MUST(qolb_cond_wait(&it.cond, it.lock) == QOLB_GRANTED);
    turn();
    leave();
}

/* ---- Turns in calls ---- */

static void task_ended(int k) {
    it.told[k].calls = 0;
    atomic_store(&it.told[k].word, 1);
    qolb_wake_at_(&it.told[k].word, 1);
}

/* The call has the task's turn, in the thread that let it through, and may ask again, once. The task's thread does
 * nothing more with it. */
static void has_task_turn(void *task) {
    int k = (int)(intptr_t)task;
    uint32_t got = qolb_task_poll(&it.task[k]);
    if (got == QOLB_WAITING) return;
    qolb_notify_done();
    do {
        MUST(got == QOLB_GRANTED && it.inside++ == 0);
        it.turns++;
        MUST(--it.inside == 0);
        MUST(qolb_task_leave(&it.task[k]) == QOLB_DONE);
        got = it.has && ++it.told[k].calls == 1 ? qolb_task_enter(&it.task[k], it.lock, has_task_turn, task)
                                                : QOLB_BUSY;
    } while (got == QOLB_GRANTED);
    if (got != QOLB_WAITING) task_ended(k);
}

static void task_turn_in_call(int self, int asks_again) {
    if (self == 0) return enters(self);
    uint32_t got = qolb_task_enter(&it.task[self], it.lock, has_task_turn, (void *)(intptr_t)self);
    if (got == QOLB_GRANTED) {
        task_turn(self);
        if (asks_again) by_task(self);
    }
    while (got == QOLB_WAITING && !is_told(self, FOR_EVER)) {}
}

void has_task_turn_in_call(int self) { task_turn_in_call(self, 0); }
void task_asks_again_in_call(int self) { task_turn_in_call(self, 1); }

/* The call enters another lock, and holds it until its thread leaves it: in the place of the table in which that thread
 * had the first. */
static void enters_another(void *task) {
    int k = (int)(intptr_t)task;
    MUST(qolb_task_poll(&it.task[k]) == QOLB_GRANTED && qolb_lock_try(it.locks[2]) == QOLB_GRANTED);
    MUST(qolb_task_leave(&it.task[k]) == QOLB_DONE && qolb_lock_leave(it.locks[2]) == QOLB_DONE);
    task_ended(k);
}

static void task_in_another(int self) {
    uint32_t got = qolb_task_enter(&it.task[self], it.lock, enters_another, (void *)(intptr_t)self);
    if (got == QOLB_GRANTED) return task_turn(self);
    while (got == QOLB_WAITING && !is_told(self, FOR_EVER)) {}
}

void enters_another_in_call(int self) { self == 1 ? task_in_another(self) : enters(self); }

static void keeps_another(void *task) {
    int k = (int)(intptr_t)task;
    MUST(qolb_task_poll(&it.task[k]) == QOLB_GRANTED && qolb_lock_enter(it.locks[2]) == QOLB_GRANTED);
    it.has = 2;
    MUST(qolb_task_leave(&it.task[k]) == QOLB_DONE);
    task_ended(k);
}

/* Thread 0 waits at the condition; as it leaves, the call of a task is made in it, which enters another lock and keeps
 * that. Thread 1 signals. */
void waits_while_a_call_enters(int self) {
    if (self == 0) {
        MUST(qolb_lock_enter(it.lock) == QOLB_GRANTED);
        uint32_t got = qolb_task_enter(&it.task[0], it.lock, keeps_another, NULL);
        MUST(got == QOLB_WAITING);
        atomic_store(&it.over, 1);
        MUST(qolb_cond_wait(&it.cond, it.lock) == QOLB_GRANTED && it.has == 2);
        turn();
        leave();
        MUST(qolb_lock_is_mine(it.locks[2]) && qolb_lock_leave(it.locks[2]) == QOLB_DONE);
        return;
    }
    while (!atomic_fetch_add(&it.over, 0)) sched_yield();
    for (int signalled = 0; !signalled; sched_yield()) {
        MUST(qolb_lock_enter(it.lock) == QOLB_GRANTED);
        signalled = it.has == 2;
        if (signalled) qolb_cond_signal(&it.cond);
        leave();
    }
}

/* A call in the leave of the first task enters by that one: it is idle. */
static void enters_by_first(void *task) {
    int k = (int)(intptr_t)task;
    uint32_t got;
    MUST(qolb_task_poll(&it.task[k]) == QOLB_GRANTED && qolb_task_leave(&it.task[k]) == QOLB_DONE);
    if (self_number() == 0) {
        got = qolb_task_enter(&it.task[0], it.lock, tells, NULL);
        MUST(got == QOLB_GRANTED || got == QOLB_WAITING);
        it.has = got == QOLB_WAITING;
        if (got == QOLB_GRANTED) MUST(qolb_task_leave(&it.task[0]) == QOLB_DONE);
    }
    task_ended(k);
}

void enters_by_the_task_that_left(int self) {
    if (self) return enters(self);
    MUST(task_enters(0, FOR_EVER) == QOLB_GRANTED);
    turn();
    MUST(qolb_task_enter(&it.task[1], it.lock, enters_by_first, (void *)(intptr_t)1) == QOLB_WAITING);
    MUST(qolb_task_leave(&it.task[0]) == QOLB_DONE);
    while (!is_told(1, FOR_EVER)) {}
    if (!it.has) return;
    MUST(task_waits(0, FOR_EVER) == QOLB_GRANTED && qolb_task_leave(&it.task[0]) == QOLB_DONE);
}

/* The same in the poll by which the first is told of a shut. */
static void asks_by_first(void *task) {
    int k = (int)(intptr_t)task;
    MUST(qolb_task_poll(&it.task[k]) == QOLB_CLOSED);
    if (self_number() == 0) MUST(qolb_task_enter(&it.task[0], it.lock, tells, NULL) == QOLB_CLOSED);
    task_ended(k);
}

void asks_by_the_task_that_was_told(int self) {
    if (self) {
        MUST(qolb_lock_enter(it.lock) == QOLB_GRANTED);
        atomic_store(&it.over, 1);
        while (atomic_fetch_add(&it.over, 0) < 2) sched_yield();
        MUST(qolb_lock_shut(it.lock) == QOLB_DONE);
        return;
    }
    while (!atomic_fetch_add(&it.over, 0)) sched_yield();
    MUST(qolb_task_enter(&it.task[0], it.lock, tells, NULL) == QOLB_WAITING);
    MUST(qolb_task_enter(&it.task[1], it.lock, asks_by_first, (void *)(intptr_t)1) == QOLB_WAITING);
    atomic_store(&it.over, 2);
    MUST(task_waits(0, FOR_EVER) == QOLB_CLOSED);
    while (!is_told(1, FOR_EVER)) {}
}

/* The first polls before it is called, and is told of the shut; a call that is made in its poll asks by it for another
 * lock. */
static void asks_elsewhere_by_first(void *task) {
    int k = (int)(intptr_t)task;
    MUST(qolb_task_poll(&it.task[k]) == QOLB_CLOSED);
    if (self_number() == 0) {
        MUST(qolb_task_enter(&it.task[0], it.locks[1], tells, NULL) == QOLB_WAITING);
        it.has = 1;
    }
    task_ended(k);
}

static uint32_t polls_often(int k) {
    uint32_t got = QOLB_WAITING;
    while (got == QOLB_WAITING) sched_yield(), got = qolb_task_poll(&it.task[k]);
    return got;
}

void asks_elsewhere_by_the_task_that_was_told(int self) {
    if (self) {
        for (int k = 0; k < 2; k++) MUST(qolb_lock_enter(it.locks[k]) == QOLB_GRANTED);
        atomic_store(&it.over, 1);
        while (atomic_fetch_add(&it.over, 0) < 2) sched_yield();
        MUST(qolb_lock_shut(it.lock) == QOLB_DONE);
        while (atomic_fetch_add(&it.over, 0) < 3) sched_yield();
        MUST(qolb_lock_leave(it.locks[1]) == QOLB_DONE);
        return;
    }
    while (!atomic_fetch_add(&it.over, 0)) sched_yield();
    MUST(qolb_task_enter(&it.task[0], it.lock, tells, NULL) == QOLB_WAITING);
    MUST(qolb_task_enter(&it.task[1], it.lock, asks_elsewhere_by_first, (void *)(intptr_t)1) == QOLB_WAITING);
    atomic_store(&it.over, 2);
    MUST(polls_often(0) == QOLB_CLOSED);
    while (!is_told(1, FOR_EVER)) {}
    atomic_store(&it.over, 3);
    if (it.has) MUST(polls_often(0) == QOLB_GRANTED && qolb_task_leave(&it.task[0]) == QOLB_DONE);
}

/* ---- Tasks at two locks ---- */

/* Two leave a lock each to a task, so that both are due. The third goes on with the later one first, and then with the
 * other: once they were called, or as soon as they have their turns. */
static void goes_on_with_two(int self, int once_called) {
    if (self < 2) {
        MUST(qolb_lock_enter(it.locks[self]) == QOLB_GRANTED);
        atomic_fetch_add(&it.over, 1);
        while (atomic_fetch_add(&it.over, 0) < 3) sched_yield();
        MUST(qolb_lock_leave(it.locks[self]) == QOLB_DONE);
        return;
    }
    while (atomic_fetch_add(&it.over, 0) < 2) sched_yield();
    for (int k = 2; k < 4; k++)
        MUST(qolb_task_enter(&it.task[k], it.locks[k - 2], tells, (void *)(intptr_t)k) == QOLB_WAITING);
    atomic_fetch_add(&it.over, 1);
    for (int k = 2; k < 4; k++) {
        while (once_called && !is_told(k, FOR_EVER)) {}
        MUST(polls_often(k) == QOLB_GRANTED && qolb_task_leave(&it.task[k]) == QOLB_DONE);
    }
}

void polls_for_two(int self) { goes_on_with_two(self, 0); }
void waits_for_two(int self) { goes_on_with_two(self, 1); }

/* Two tasks wait behind a request that gave up too far from its turn: the second of them has an entry in the list in
 * which that one's would be, if it were a task's. */
void two_tasks_behind_one_that_is_late(int self) {
    if (self == 0) MUST(qolb_lock_enter(it.lock) == QOLB_GRANTED);
    if (self == 0) atomic_store(&it.over, 1);
    while (atomic_fetch_add(&it.over, 0) < (self ? self : 3)) sched_yield();
    if (self == 0) return leave();
    if (self == 1) {
        time_goes_on(MS / 2);
        MUST(qolb_lock_enter_within(it.lock, MS) == QOLB_TIMEDOUT);
        atomic_store(&it.over, 2);
        return;
    }
    for (int k = 2; k < 4; k++) MUST(qolb_task_enter(&it.task[k], it.lock, tells, (void *)(intptr_t)k) == QOLB_WAITING);
    atomic_store(&it.over, 3);
    for (int k = 2; k < 4; k++) {
        while (!is_told(k, FOR_EVER)) {}
        MUST(polls_often(k) == QOLB_GRANTED && qolb_task_leave(&it.task[k]) == QOLB_DONE);
    }
}
