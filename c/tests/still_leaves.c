/* Tests a thread that is stopped inside a call that leaves a lock, just while it wakes the next holder. While the
 * thread is stopped, all other threads must be able to enter, whichever call was stopped. It must also be possible to
 * destroy the lock and to free its memory. The program also stops a thread that shuts a lock, while it wakes a thread
 * that waits on a condition. The woken thread gets the result CLOSED once the lock is shut for all threads. The program
 * is linked with --wrap for syscall. Prints only errors. */
#define _GNU_SOURCE
#include <qolb.h>
#include <stdarg.h>
#include <string.h>
#include <sys/syscall.h>

#include "waiters.h"

long __real_syscall(long number, ...);

/* The system calls that wake threads which sleep at a word, and threads which sleep at a lock. */
enum { FUTEX_WAKE_PRIVATE = 129, FUTEX_WAKE_BITSET_PRIVATE = 138 };

static __thread int first; /* the system call in which this thread stops, or 0 */
static atomic_int holds, asks, is_stopped, may_go_on;
static qolb_lock lock;
static qolb_cond cond;

/* The first thread stops after it has woken the first sleeper. */
long __wrap_syscall(long number, ...) {
    long word[6];
    va_list rest;
    va_start(rest, number);
    for (int k = 0; k < 6; k++) word[k] = va_arg(rest, long);
    va_end(rest);
    long got = __real_syscall(number, word[0], word[1], word[2], word[3], word[4], word[5]);
    if (first && number == SYS_futex && word[1] == first) {
        atomic_store(&is_stopped, 1);
        while (!atomic_load(&may_go_on)) usleep(1000);
    }
    return got;
}

static void *leaves_to_another(void *unused) {
    first = FUTEX_WAKE_BITSET_PRIVATE;
    MUST(qolb_lock_enter(&lock), QOLB_GRANTED);
    atomic_store(&holds, 1);
    until_asleep(&asks);
    MUST(qolb_lock_leave(&lock), QOLB_DONE);
    return unused;
}

static void *goes_on(void *unused) {
    while (!atomic_load(&is_stopped)) sched_yield();
    usleep(20000);
    atomic_store(&may_go_on, 1);
    return unused;
}

static void uses(void) {
    about_to_wait(&asks);
    MUST(qolb_lock_enter(&lock), QOLB_GRANTED);
    while (!atomic_load(&is_stopped)) sched_yield();
    MUST(qolb_lock_leave(&lock), QOLB_DONE);
    MUST(qolb_lock_try(&lock), QOLB_GRANTED);
    MUST(qolb_lock_leave(&lock), QOLB_DONE);
    MUST(qolb_lock_enter_within(&lock, 0), QOLB_GRANTED);
    MUST(qolb_lock_leave(&lock), QOLB_DONE);
}

static void is_free_meanwhile(uint64_t barging) {
    pthread_t one, other;
    lock = (qolb_lock)QOLB_LOCK_INIT_BARGING(barging);
    holds = asks = is_stopped = may_go_on = 0;
    MUST(pthread_create(&one, NULL, leaves_to_another, NULL), 0);
    while (!atomic_load(&holds)) sched_yield();
    uses();
    MUST(qolb_lock_destroy(&lock), QOLB_DONE);
    memset(&lock, 0x5a, sizeof lock);
    MUST(pthread_create(&other, NULL, goes_on, NULL), 0);
    pthread_join(one, NULL);
    pthread_join(other, NULL);
}

static void *shuts(void *unused) {
    first = FUTEX_WAKE_PRIVATE;
    until_asleep(&asks);
    MUST(qolb_lock_enter(&lock), QOLB_GRANTED);
    MUST(qolb_lock_shut(&lock), QOLB_DONE);
    return unused;
}

static void is_shut_for_who_is_told(uint64_t barging) {
    pthread_t one, other;
    lock = (qolb_lock)QOLB_LOCK_INIT_BARGING(barging);
    cond = (qolb_cond)QOLB_COND_INIT;
    asks = is_stopped = may_go_on = 0;
    MUST(qolb_lock_enter(&lock), QOLB_GRANTED);
    MUST(pthread_create(&one, NULL, shuts, NULL), 0);
    MUST(pthread_create(&other, NULL, goes_on, NULL), 0);
    about_to_wait(&asks);
    MUST(qolb_cond_wait(&cond, &lock), QOLB_CLOSED);
    MUST(qolb_lock_try(&lock), QOLB_CLOSED);
    MUST(qolb_lock_enter_within(&lock, 0), QOLB_CLOSED);
    MUST(qolb_lock_destroy(&lock), QOLB_DONE);
    memset(&lock, 0x5a, sizeof lock);
    pthread_join(one, NULL);
    pthread_join(other, NULL);
}

int main(void) {
    alarm(600);
    for (uint64_t barging = 0; barging <= 64; barging++) is_free_meanwhile(barging);
    for (uint64_t barging = 0; barging <= 64; barging += 16) is_shut_for_who_is_told(barging);
    return 0;
}
