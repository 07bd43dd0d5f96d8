/* Tests a thread that is cancelled when it begins to wait on a condition, and is signalled before it sleeps: another
 * waiter must get the signal. `make check` runs this program both alone and with the preload library
 * (../preload/preload.c). Prints only errors.
 *
 * This program delays two functions that preload.c calls during the wait. The C library calls neither of them by name.
 * In the run without preload.c nothing is delayed, and the thread is cancelled while it sleeps. */
#define _GNU_SOURCE
#include "mutexes.h"
#include <dlfcn.h>
#include <linux/futex.h>
#include <sched.h>
#include <stdarg.h>
#include <sys/syscall.h>

enum { BEGUN, HELD_UP, CANCELLED, SIGNALLED };

static pthread_mutex_t mutex = PTHREAD_MUTEX_INITIALIZER;
static pthread_cond_t condition = PTHREAD_COND_INITIALIZER;
static int jobs, waiters, stage;
static _Atomic int second_thread;
static __thread int is_first, was_held_up;

static int is_at(int least) { return __atomic_load_n(&stage, __ATOMIC_SEQ_CST) >= least; }

static void go_to(int next) { __atomic_store_n(&stage, next, __ATOMIC_SEQ_CST); }

static void await(int least) {
    while (!is_at(least)) sched_yield();
}

/* The first thread has checked whether it is cancelled, and is not in the list of the condition yet. */
void pthread_testcancel(void) {
    void (*real)(void) = (void (*)(void))dlsym(RTLD_NEXT, "pthread_testcancel");
    real();
    if (!is_first || was_held_up) return;
    was_held_up = 1;
    go_to(HELD_UP);
    await(CANCELLED);
}

/* It is in the list, has left the mutex to the other thread, and has not looked yet whether it was signalled. */
long syscall(long number, ...) {
    long (*real)(long, ...) = (long (*)(long, ...))dlsym(RTLD_NEXT, "syscall");
    long given[6];
    va_list more;
    va_start(more, number);
    for (int k = 0; k < 6; k++) given[k] = va_arg(more, long);
    va_end(more);
    long got = real(number, given[0], given[1], given[2], given[3], given[4], given[5]);
    int does = number == SYS_futex ? given[1] & FUTEX_CMD_MASK : FUTEX_WAIT;
    if (was_held_up && (does == FUTEX_WAKE || does == FUTEX_WAKE_BITSET)) await(SIGNALLED);
    return got;
}

static void unlock(void *it) { WANT(pthread_mutex_unlock(it), 0); }

static void *takes_a_job(void *first) {
    struct timespec end;
    is_first = first != NULL;
    if (!is_first) second_thread = gettid();
    clock_gettime(CLOCK_REALTIME, &end);
    end.tv_sec += 1000;
    WANT(pthread_mutex_lock(&mutex), 0);
    waiters++;
    pthread_cleanup_push(unlock, &mutex);
    while (!jobs) WANT(pthread_cond_timedwait(&condition, &mutex, &end), 0);
    jobs--;
    pthread_cleanup_pop(1);
    return NULL;
}

/* Returns the number of waiters. A waiter leaves the mutex once it is in the list of the condition. */
static int waiters_by_now(void) {
    WANT(pthread_mutex_lock(&mutex), 0);
    int now = waiters;
    WANT(pthread_mutex_unlock(&mutex), 0);
    return now;
}

/* Waits until the second thread sleeps: it waits for the mutex, which the first thread has. */
static void await_sleep_of_second(void) {
    char name[64], state = 0;
    while (state != 'S') {
        rest(1);
        snprintf(name, sizeof name, "/proc/self/task/%d/stat", second_thread);
        FILE *file = fopen(name, "r");
        if (file && fscanf(file, "%*d (%*[^)]) %c", &state) != 1) state = 0;
        if (file) fclose(file);
    }
}

int main(void) {
    pthread_t first, second;
    void *ended;
    alarm(60);
    WANT(pthread_create(&first, NULL, takes_a_job, &mutex), 0);
    for (int k = 0; k < 200 && !is_at(HELD_UP); k++) rest(1);
    WANT(pthread_create(&second, NULL, takes_a_job, NULL), 0);
    if (is_at(HELD_UP)) await_sleep_of_second();
    WANT(pthread_cancel(first), 0);
    go_to(CANCELLED);
    while (waiters_by_now() < 2) rest(1);
    WANT(pthread_mutex_lock(&mutex), 0);
    jobs = 1;
    WANT(pthread_cond_signal(&condition), 0);
    WANT(pthread_mutex_unlock(&mutex), 0);
    go_to(SIGNALLED);
    WANT(pthread_join(first, &ended), 0);
    WANT(ended == PTHREAD_CANCELED, 1);
    WANT(pthread_join(second, &ended), 0);
    WANT(ended == NULL, 1);
    return 0;
}
