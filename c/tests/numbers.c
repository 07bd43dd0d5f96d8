/* Tests thread numbers. If a thread holds more locks than its table can hold, each further lock stores the number of
 * this thread as its holder. No two threads of a process may have the same number. The same must hold in the child of a
 * fork, where the first thread keeps the number that it had in the parent. Prints only errors. */
#define _POSIX_C_SOURCE 200809L
#include "want.h"
#include <pthread.h>
#include <qolb.h>
#include <stdio.h>
#include <stdlib.h>
#include <sys/wait.h>
#include <unistd.h>

enum { TURNS = 40, MS = 1000000 };

static qolb_lock lock;
static qolb_cond cond = QOLB_COND_INIT;

/* Each of two threads enters more locks than its table has room for. The locks that are entered later note the number.
 */
enum { MANY = 12 };
static qolb_lock before[2][MANY];

static void enters_many(int self) {
    for (int k = 0; k < MANY; k++) MUST(qolb_lock_enter(&before[self][k]), QOLB_GRANTED);
}

static void leaves_many(int self) {
    for (int k = 0; k < MANY; k++) MUST(qolb_lock_leave(&before[self][k]), QOLB_DONE);
}

/* This thread does not hold the lock, because another thread holds it. */
static void *holds_nothing(void *unused) {
    enters_many(1);
    MUST(qolb_lock_is_mine(&lock), 0);
    MUST(qolb_lock_leave(&lock), QOLB_MISUSE);
    MUST(qolb_lock_shut(&lock), QOLB_MISUSE);
    MUST(qolb_cond_wait(&cond, &lock), QOLB_MISUSE);
    MUST(qolb_lock_try(&lock), QOLB_BUSY);
    MUST(qolb_lock_enter_within(&lock, MS), QOLB_TIMEDOUT);
    leaves_many(1);
    return unused;
}

static void *has_it(void *unused) {
    MUST(qolb_lock_enter(&lock), QOLB_GRANTED);
    MUST(qolb_lock_enter(&lock), QOLB_MISUSE);
    MUST(qolb_lock_leave(&lock), QOLB_DONE);
    return unused;
}

static void in_another_thread(void *(*work)(void *)) {
    pthread_t id;
    MUST(pthread_create(&id, NULL, work, NULL), 0);
    MUST(pthread_join(id, NULL), 0);
}

/* Checks the lock in the thread that holds it. */
static void is_held(void) {
    in_another_thread(holds_nothing);
    MUST(qolb_lock_enter(&lock), QOLB_MISUSE);
    MUST(qolb_lock_is_mine(&lock), 1);
    MUST(qolb_lock_leave(&lock), QOLB_DONE);
    in_another_thread(has_it);
    MUST(qolb_lock_enter(&lock), QOLB_GRANTED);
    MUST(qolb_lock_leave(&lock), QOLB_DONE);
    MUST(qolb_lock_destroy(&lock), QOLB_DONE);
}

/* Forks while a lock is held: at its first use or after uncontended acquisitions, and noted in the table or in the
 * lock. */
static void forks(qolb_lock as, int turns, int is_beyond) {
    int ended;
    lock = as;
    if (is_beyond) enters_many(0);
    for (int k = 0; k < turns; k++) {
        MUST(qolb_lock_enter(&lock), QOLB_GRANTED);
        MUST(qolb_lock_leave(&lock), QOLB_DONE);
    }
    MUST(qolb_lock_enter(&lock), QOLB_GRANTED);
    pid_t child = fork();
    MUST(child >= 0, 1);
    is_held();
    if (is_beyond) leaves_many(0);
    if (child == 0) exit(0);
    MUST(waitpid(child, &ended, 0) == child && WIFEXITED(ended) && WEXITSTATUS(ended) == 0, 1);
}

int main(void) {
    for (uint32_t barging = 0; barging <= 64; barging += 64)
        for (int is_beyond = 0; is_beyond < 2; is_beyond++) {
            forks((qolb_lock)QOLB_LOCK_INIT_BARGING(barging), 0, is_beyond);
            forks((qolb_lock)QOLB_LOCK_INIT_BARGING(barging), TURNS, is_beyond);
        }
    return 0;
}
