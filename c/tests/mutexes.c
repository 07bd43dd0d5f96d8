/* Tests the mutexes and condition variables of the C library, as a program may use them. `make check` runs this program
 * both alone and with the preload library (../preload/preload.c). Both runs must have the same results. Prints only
 * errors. */
#define _GNU_SOURCE
#include "mutexes.h"
#include <dlfcn.h>
#include <limits.h>
#include <sched.h>
#include <sys/mman.h>
#include <sys/wait.h>

static pthread_mutex_t ordinary = PTHREAD_MUTEX_INITIALIZER, semaphore = PTHREAD_MUTEX_INITIALIZER;
static pthread_mutex_t checking = PTHREAD_ERRORCHECK_MUTEX_INITIALIZER_NP,
                       recursive = PTHREAD_RECURSIVE_MUTEX_INITIALIZER_NP;
static pthread_cond_t news = PTHREAD_COND_INITIALIZER;
static int has_news, rounds;

static struct timespec in_10_ms(clockid_t clock) {
    struct timespec end;
    clock_gettime(clock, &end);
    end.tv_nsec += 10000000;
    if (end.tv_nsec >= 1000000000) end.tv_sec++, end.tv_nsec -= 1000000000;
    return end;
}

static void *finds_it_locked(void *mutex) {
    struct timespec end = in_10_ms(CLOCK_REALTIME);
    WANT(pthread_mutex_trylock(mutex), EBUSY);
    WANT(pthread_mutex_timedlock(mutex, &end), ETIMEDOUT);
    end = in_10_ms(CLOCK_MONOTONIC);
    WANT(pthread_mutex_clocklock(mutex, CLOCK_MONOTONIC, &end), ETIMEDOUT);
    return NULL;
}

static void *unlocks(void *mutex) {
    WANT(pthread_mutex_unlock(mutex), 0);
    return NULL;
}

static void *may_not_unlock(void *mutex) {
    WANT(pthread_mutex_unlock(mutex), EPERM);
    return finds_it_locked(mutex);
}

static void *takes(void *mutex) {
    WANT(pthread_mutex_trylock(mutex), 0);
    WANT(pthread_mutex_unlock(mutex), 0);
    return NULL;
}

/* Any thread may unlock an ordinary mutex, which is then free. */
static void of_an_ordinary_one(void) {
    WANT(pthread_mutex_lock(&ordinary), 0);
    in_another_thread(finds_it_locked, &ordinary);
    in_another_thread(unlocks, &ordinary);
    in_another_thread(takes, &ordinary);
    WANT(pthread_mutex_lock(&ordinary), 0);
    WANT(pthread_mutex_unlock(&ordinary), 0);
    in_another_thread(unlocks, &ordinary); /* the mutex is not locked */
    in_another_thread(takes, &ordinary);
}

static void of_others(void) {
    WANT(pthread_mutex_lock(&checking), 0);
    WANT(pthread_mutex_lock(&checking), EDEADLK);
    in_another_thread(may_not_unlock, &checking);
    WANT(pthread_mutex_unlock(&checking), 0);
    WANT(pthread_mutex_unlock(&checking), EPERM);
    in_another_thread(takes, &checking);
    WANT(pthread_mutex_lock(&recursive), 0);
    WANT(pthread_mutex_lock(&recursive), 0);
    WANT(pthread_mutex_unlock(&recursive), 0);
    in_another_thread(finds_it_locked, &recursive);
    WANT(pthread_mutex_unlock(&recursive), 0);
    in_another_thread(takes, &recursive);
}

/* A mutex is used as a semaphore: one thread locks it again and again, and only the other thread unlocks it. */
static void *lets_go_again_and_again(void *mutex) {
    for (int k = 0; k < 200; k++) {
        while (__atomic_load_n(&rounds, __ATOMIC_SEQ_CST) != k + 1) sched_yield();
        WANT(pthread_mutex_unlock(mutex), 0);
    }
    return NULL;
}

static void as_a_semaphore(void) {
    pthread_t id;
    WANT(pthread_create(&id, NULL, lets_go_again_and_again, &semaphore), 0);
    WANT(pthread_mutex_lock(&semaphore), 0);
    for (int k = 0; k < 200; k++) {
        __atomic_store_n(&rounds, k + 1, __ATOMIC_SEQ_CST);
        WANT(pthread_mutex_lock(&semaphore), 0);
    }
    WANT(pthread_join(id, NULL), 0);
    in_another_thread(finds_it_locked, &semaphore);
    WANT(pthread_mutex_unlock(&semaphore), 0);
}

static void *tells(void *mutex) {
    WANT(pthread_mutex_lock(mutex), 0);
    has_news = 1;
    WANT(pthread_cond_signal(&news), 0);
    WANT(pthread_mutex_unlock(mutex), 0);
    return NULL;
}

static void of_conditions(pthread_mutex_t *mutex) {
    pthread_t id;
    struct timespec end = in_10_ms(CLOCK_REALTIME);
    has_news = 0;
    WANT(pthread_mutex_lock(mutex), 0);
    WANT(pthread_cond_timedwait(&news, mutex, &end), ETIMEDOUT);
    WANT(pthread_create(&id, NULL, tells, mutex), 0);
    while (!has_news) WANT(pthread_cond_wait(&news, mutex), 0);
    WANT(pthread_mutex_unlock(mutex), 0);
    WANT(pthread_join(id, NULL), 0);
}

/* ---- Waiting with a mutex that another thread holds, or none ---- */

static void *waits_with_it(void *mutex) {
    struct timespec end = in_10_ms(CLOCK_REALTIME);
    WANT(pthread_cond_timedwait(&news, mutex, &end), ETIMEDOUT);
    return NULL;
}

static void *may_not_wait_with_it(void *mutex) {
    WANT(pthread_cond_wait(&news, mutex), EPERM);
    return NULL;
}

/* A thread waits at a condition with an ordinary mutex that another thread holds or that is free. Afterwards it is
 * locked. */
static void of_waiting_with_an_ordinary_one(void) {
    for (int holds = 0; holds < 2; holds++) {
        if (holds) WANT(pthread_mutex_lock(&ordinary), 0);
        in_another_thread(waits_with_it, &ordinary);
        in_another_thread(finds_it_locked, &ordinary);
        WANT(pthread_mutex_unlock(&ordinary), 0);
        in_another_thread(takes, &ordinary);
    }
}

static void of_waiting_with(pthread_mutex_t *mutex) {
    in_another_thread(may_not_wait_with_it, mutex);
    WANT(pthread_mutex_lock(mutex), 0);
    in_another_thread(may_not_wait_with_it, mutex);
    WANT(pthread_mutex_unlock(mutex), 0);
    in_another_thread(takes, mutex);
}

/* ---- Times ---- */

static const struct timespec never = {LONG_MAX, 999999999}, long_ago = {-5, 0},
                             no_times[] = {{1, -1}, {1, 1000000000}, {LONG_MAX, LONG_MIN}};

static void *finds_no_time(void *mutex) {
    for (int k = 0; k < 3; k++) {
        WANT(pthread_mutex_timedlock(mutex, &no_times[k]), EINVAL);
        WANT(pthread_mutex_clocklock(mutex, CLOCK_MONOTONIC, &no_times[k]), EINVAL);
    }
    WANT(pthread_mutex_clocklock(mutex, CLOCK_PROCESS_CPUTIME_ID, &never), EINVAL);
    WANT(pthread_mutex_timedlock(mutex, &long_ago), ETIMEDOUT);
    return NULL;
}

static void *takes_at_last(void *mutex) {
    WANT(pthread_mutex_timedlock(mutex, &never), 0);
    WANT(pthread_mutex_unlock(mutex), 0);
    WANT(pthread_mutex_clocklock(mutex, CLOCK_MONOTONIC, &never), 0);
    WANT(pthread_mutex_unlock(mutex), 0);
    return NULL;
}

/* An invalid time is an error, unless the mutex is free. The last second that a time can name has not come. */
static void of_times(void) {
    pthread_t id;
    WANT(pthread_mutex_timedlock(&ordinary, &no_times[0]), 0);
    in_another_thread(finds_no_time, &ordinary);
    for (int k = 0; k < 3; k++) {
        WANT(pthread_cond_timedwait(&news, &ordinary, &no_times[k]), EINVAL);
        WANT(pthread_cond_clockwait(&news, &ordinary, CLOCK_MONOTONIC, &no_times[k]), EINVAL);
    }
    WANT(pthread_cond_clockwait(&news, &ordinary, CLOCK_PROCESS_CPUTIME_ID, &never), EINVAL);
    WANT(pthread_cond_timedwait(&news, &ordinary, &long_ago), ETIMEDOUT);
    WANT(pthread_create(&id, NULL, takes_at_last, &ordinary), 0);
    rest(20);
    WANT(pthread_mutex_unlock(&ordinary), 0);
    WANT(pthread_join(id, NULL), 0);
    has_news = 0;
    WANT(pthread_mutex_lock(&ordinary), 0);
    WANT(pthread_create(&id, NULL, tells, &ordinary), 0);
    while (!has_news) WANT(pthread_cond_timedwait(&news, &ordinary, &never), 0);
    WANT(pthread_mutex_unlock(&ordinary), 0);
    WANT(pthread_join(id, NULL), 0);
}

/* ---- Cancelling ---- */

static void has_it_again(void *mutex) {
    WANT(pthread_mutex_trylock(mutex), EBUSY);
    WANT(pthread_mutex_unlock(mutex), 0);
}

static void *waits_until_cancelled(void *mutex) {
    WANT(pthread_mutex_lock(mutex), 0);
    pthread_cleanup_push(has_it_again, mutex);
    __atomic_store_n(&rounds, 1, __ATOMIC_SEQ_CST);
    for (;;) pthread_cond_wait(&news, mutex);
    pthread_cleanup_pop(0);
    return NULL;
}

/* A thread that is cancelled while it waits at a condition has the mutex again, and ends. */
static void of_cancelling(int milliseconds) {
    pthread_t id;
    void *ended;
    __atomic_store_n(&rounds, 0, __ATOMIC_SEQ_CST);
    WANT(pthread_create(&id, NULL, waits_until_cancelled, &ordinary), 0);
    while (!__atomic_load_n(&rounds, __ATOMIC_SEQ_CST)) sched_yield();
    if (milliseconds) rest(milliseconds);
    WANT(pthread_cancel(id), 0);
    WANT(pthread_join(id, &ended), 0);
    WANT(ended == PTHREAD_CANCELED, 1);
    in_another_thread(takes, &ordinary);
}

/* ---- Destroying, and initialising again ---- */

static void of_destroying(void) {
    pthread_mutex_t mutex = PTHREAD_MUTEX_INITIALIZER;
    pthread_cond_t condition = PTHREAD_COND_INITIALIZER;
    struct timespec end = in_10_ms(CLOCK_REALTIME);
    WANT(pthread_mutex_lock(&mutex), 0);
    WANT(pthread_cond_timedwait(&condition, &mutex, &end), ETIMEDOUT);
    WANT(pthread_mutex_destroy(&mutex), EBUSY);
    in_another_thread(finds_it_locked, &mutex);
    WANT(pthread_mutex_unlock(&mutex), 0);
    WANT(pthread_cond_destroy(&condition), 0);
    WANT(pthread_mutex_destroy(&mutex), 0);
    WANT(pthread_mutex_lock(&mutex), EINVAL);
    WANT(pthread_mutex_init(&mutex, NULL), 0);
    in_another_thread(takes, &mutex);
    WANT(pthread_mutex_destroy(&mutex), 0);
}

/* Initialises again a mutex that another thread held, by the call and by assignment, as the child of a fork does. */
static void of_initialising_again(void) {
    static pthread_mutex_t mutex = PTHREAD_MUTEX_INITIALIZER;
    for (int k = 0; k < 3; k++) {
        WANT(pthread_mutex_lock(&mutex), 0);
        WANT(pthread_mutex_init(&mutex, NULL), 0);
        in_another_thread(takes, &mutex);
        WANT(pthread_mutex_lock(&mutex), 0);
        mutex = (pthread_mutex_t)PTHREAD_MUTEX_INITIALIZER;
        in_another_thread(takes, &mutex);
        WANT(pthread_mutex_destroy(&mutex), 0);
        WANT(pthread_mutex_init(&mutex, NULL), 0);
    }
}

/* ---- Mutexes of other kinds ---- */

static void *ends_with_it(void *mutex) {
    WANT(pthread_mutex_lock(mutex), 0);
    return NULL;
}

static void of_a_robust_one(void) {
    pthread_mutex_t mutex;
    pthread_mutexattr_t kind;
    WANT(pthread_mutexattr_init(&kind), 0);
    WANT(pthread_mutexattr_setrobust(&kind, PTHREAD_MUTEX_ROBUST), 0);
    WANT(pthread_mutex_init(&mutex, &kind), 0);
    of_waiting_with(&mutex);
    in_another_thread(ends_with_it, &mutex);
    WANT(pthread_mutex_lock(&mutex), EOWNERDEAD);
    WANT(pthread_mutex_consistent(&mutex), 0);
    WANT(pthread_mutex_unlock(&mutex), 0);
    WANT(pthread_mutex_destroy(&mutex), 0);
}

static void of_one_that_processes_share(void) {
    pthread_mutexattr_t kind;
    pthread_mutex_t *mutex = mmap(NULL, sizeof *mutex, PROT_READ | PROT_WRITE, MAP_SHARED | MAP_ANONYMOUS, -1, 0);
    int ended;
    WANT(mutex == MAP_FAILED, 0);
    WANT(pthread_mutexattr_init(&kind), 0);
    WANT(pthread_mutexattr_setpshared(&kind, PTHREAD_PROCESS_SHARED), 0);
    WANT(pthread_mutex_init(mutex, &kind), 0);
    pid_t child = fork();
    if (child == 0) _exit(pthread_mutex_lock(mutex));
    WANT(waitpid(child, &ended, 0) == child && ended == 0, 1);
    WANT(pthread_mutex_trylock(mutex), EBUSY);
    WANT(pthread_mutex_unlock(mutex), 0);
    WANT(pthread_mutex_trylock(mutex), 0);
}

/* ---- A mutex that is locked before the program has an environment ---- */

static pthread_mutex_t early = PTHREAD_MUTEX_INITIALIZER;

static void lock_early(void) { WANT(pthread_mutex_lock(&early), 0); }

__attribute__((section(".preinit_array"), used)) static void (*before_all)(void) = lock_early;

static void of_an_early_one(void) {
    in_another_thread(finds_it_locked, &early);
    WANT(pthread_mutex_unlock(&early), 0);
    in_another_thread(takes, &early);
}

/* A lookup with a version finds the function that a lookup without a version finds: both that of the C library, or both
 * that of the preload library. The thread sanitizer of clang looks functions up in both ways. */
static void of_versions(void) {
    static const char *const functions[][2] = {
        {"pthread_mutex_init", "GLIBC_2.2.5"},     {"pthread_mutex_destroy", "GLIBC_2.2.5"},
        {"pthread_mutex_lock", "GLIBC_2.2.5"},     {"pthread_mutex_trylock", "GLIBC_2.2.5"},
        {"pthread_mutex_unlock", "GLIBC_2.2.5"},   {"pthread_mutex_timedlock", "GLIBC_2.2.5"},
        {"pthread_cond_wait", "GLIBC_2.3.2"},      {"pthread_mutex_clocklock", "GLIBC_2.30"},
        {"pthread_cond_signal", "GLIBC_2.3.2"},    {"pthread_cond_timedwait", "GLIBC_2.3.2"},
        {"pthread_cond_broadcast", "GLIBC_2.3.2"}, {"pthread_cond_clockwait", "GLIBC_2.30"},
        {"pthread_cond_destroy", "GLIBC_2.3.2"},   {"pthread_cancel", "GLIBC_2.2.5"},
    };
    for (size_t k = 0; k < sizeof functions / sizeof *functions; k++) {
        const char *name = functions[k][0];
        WANT(dlvsym(RTLD_DEFAULT, name, functions[k][1]) == dlsym(RTLD_DEFAULT, name), 1);
    }
}

int main(void) {
    alarm(60);
    of_versions();
    of_an_early_one();
    of_an_ordinary_one();
    of_others();
    as_a_semaphore();
    of_conditions(&ordinary);
    of_conditions(&checking);
    of_waiting_with_an_ordinary_one();
    of_waiting_with(&checking);
    of_waiting_with(&recursive);
    of_times();
    of_cancelling(20);
    for (int k = 0; k < 200; k++) of_cancelling(0);
    of_destroying();
    of_initialising_again();
    of_a_robust_one();
    of_one_that_processes_share();
    return 0;
}
