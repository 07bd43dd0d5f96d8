/* Declarations that the scenes of the lock share (lock_scenes.c, limit_scenes.c, task_scenes.c). */
#ifndef CORE_SCENES_H
#define CORE_SCENES_H

#include <lock/entries.h>
#include <sched.h>
#include "explorer.h"

#define UNSEEN __attribute__((no_sanitize("thread")))

enum { LOCKS = 3 };

struct it {
    qolb_lock *lock; /* the first is `locks[0]`, unless it is freed */
    qolb_lock *locks[LOCKS];
    void *block; /* of the first */
    qolb_cond cond, other;
    int turns, inside, users, has, shut;
    atomic_int over;
    /* Of each task: whether its call was made, and how often since it wanted one. Thread 0 may have a second task. */
    struct {
        atomic_uint word;
        int calls;
    } told[THREADS + 1];
    qolb_task task[THREADS + 1];
};
extern struct it it;

/* Who may be served before whom: a thread is in a call; that of its second task. */
void begins_call(void);
void ends_call(void);
void is_second(int self, int so);
/* Whether a thread has ever drawn a ticket. */
int has_drawn(int self);
/* Whether the lock knows of another that is in its call; and until then, or until it is in no call any more. */
int is_known(int other);
void await_other(int other);

void turn(void);
int had_turns(int turns);
void leave(void);
void enters(int self);
void enters_with(int yields);
void one_stays(int self);
void is_late(int self);
void tries(int self);
int enters_to_shut(int self);
void last_frees(int self);
void free_lock(void);

/* ---- limit_scenes.c ---- */

/* clang-format off */
#define LIMIT_SCENES(of)                                                                                              \
    of(is_late_while_one_stays_in) of(is_late_at_a_condition) of(signals_in_order) of(signals_whose_time_is_over)     \
    of(signals_at_two_locks) of(shuts_behind_a_signal) of(is_late_once_it_is_near) of(waits_again)                    \
    of(signals_and_waits) of(broadcasts_at_two_locks)
/* clang-format on */
#define DECLARED(name) void name(int self);
LIMIT_SCENES(DECLARED)

/* ---- task_scenes.c ---- */

/* clang-format off */
#define TASK_SCENES(of)                                                                                               \
    of(by_task) of(by_task_twice) of(one_task_gives_up) of(a_task_beside_threads) of(tasks_beside_a_thread)           \
    of(a_task_beside_threads_twice) of(tasks_beside_a_thread_twice) of(a_task_beside_one_that_yields)                 \
    of(tasks_beside_one_that_yields) of(a_task_beside_one_that_stays) of(a_task_gives_up_between_threads)             \
    of(a_task_gives_up_beside_one_that_yields) of(a_task_gives_up_before_one_beside_one_that_yields)                  \
    of(a_task_gives_up_and_asks_again) of(a_thread_is_late_between_tasks) of(a_thread_is_late_before_a_task)          \
    of(a_thread_is_late_or_a_task_waits) of(both_give_up) of(one_tries_beside_a_task) of(two_tasks_of_one)            \
    of(first_of_two_gives_up) of(second_of_two_gives_up) of(both_of_two_give_up) of(tasks_until_shut)                 \
    of(a_task_until_shut) of(a_task_shuts) of(last_task_frees) of(last_of_both_frees) of(last_that_polls_frees)       \
    of(a_task_polls_early) of(one_closes_beside_a_task) of(closes_while_both_wait) of(a_task_signals)                 \
    of(has_task_turn_in_call) of(task_asks_again_in_call) of(enters_another_in_call) of(waits_while_a_call_enters)    \
    of(a_task_comes_to_a_younger_lock) of(a_task_finds_no_memory) of(last_frees_beside_entries)                       \
    of(a_task_shuts_beside_a_waiter) of(a_task_beside_one_that_yields_once) of(gives_up_far_before_one_near)          \
    of(enters_by_the_task_that_left) of(one_frees_beside_a_task) of(asks_by_the_task_that_was_told)                   \
    of(asks_elsewhere_by_the_task_that_was_told) of(polls_for_two) of(waits_for_two)                  \
    of(two_tasks_behind_one_that_is_late)
/* clang-format on */
TASK_SCENES(DECLARED)

#endif
