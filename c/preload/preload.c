/* The preload library replaces the pthread mutexes of a program with qolb_locks, without compiling the program again.
 *
 *   make -C c && LD_PRELOAD=c/build/preload.so PROGRAM        (glibc, Linux 4.14); installed as LIBDIR/qolb/preload.so
 *
 * Each ordinary mutex that the program locks gets a qolb_lock of its own, which takes half a KB. Each condition
 * variable on which the program waits with such a mutex gets a qolb_cond. The C library still handles recursive,
 * error-checking, robust, shared and priority mutexes, and any mutex for which no memory is left. The library decides
 * at the first use of a mutex whether to replace it. This decision holds until the program destroys or initialises the
 * mutex again.
 *
 * The replaced mutexes behave like those of the C library:
 *
 * - Any thread may unlock a mutex. Unlocking a free mutex changes nothing.
 * - A thread that locks a mutex which it already holds waits until another thread unlocks it.
 * - A thread may wait on a condition with a mutex that another thread holds, or with a free mutex.
 * - A mutex that a thread held when it forked is held in the child, which does not have the threads that waited.
 *
 * Limitations:
 *
 * - A program that never destroys its mutexes keeps half a KB for each address at which it has locked a mutex. The
 *   child of a fork keeps its parent's memory, and needs the same amount again for each mutex that it uses.
 * - A wait until a time on CLOCK_REALTIME does not notice if the clock is set during the wait.
 * - A wait on a condition may wake spuriously when a thread is cancelled.
 * - A signal handler must not use a mutex, which POSIX forbids anyway. Here, a handler that interrupts the first use of
 *   a mutex and tries to lock the same mutex waits for ever.
 * - Code that does not call the C library's mutexes by their names is not affected: C11's mtx_t, Rust's
 *   std::sync::Mutex, and libraries that are opened with RTLD_DEEPBIND. Such a library must not share a mutex with
 *   other code.
 * - If a program was compiled by gcc with -fsanitize=thread, the sanitizer does not see the replaced mutexes, and
 *   reports false races. To let the sanitizer see the mutexes, put libtsan.so before this library in LD_PRELOAD.
 *
 * The environment variable QOLB_BARGING sets the barging limit (man 3 qolb_lock). The default is 1024, and 0 means
 * strict order. A lock that is opened in .preinit_array, before the environment is set up, has the limit 1024. */
#define _GNU_SOURCE
#include "preload_turns.h"
#include <dlfcn.h>
#include <errno.h>
#include <pthread.h>
#include <stdio.h>
#include <stdlib.h>
#include <string.h>
#include <unistd.h>

/* ---- The C library's own functions ---- */

#define REAL(name, version, ...)                                          \
    static int (*real_##name(void))(__VA_ARGS__) {                        \
        static _Atomic(void *) found;                                     \
        if (!found) found = dlvsym(RTLD_NEXT, "pthread_" #name, version); \
        return (int (*)(__VA_ARGS__))found;                               \
    }

REAL(mutex_init, "GLIBC_2.2.5", pthread_mutex_t *, const pthread_mutexattr_t *)
REAL(mutex_destroy, "GLIBC_2.2.5", pthread_mutex_t *)
REAL(mutex_lock, "GLIBC_2.2.5", pthread_mutex_t *)
REAL(mutex_trylock, "GLIBC_2.2.5", pthread_mutex_t *)
REAL(mutex_timedlock, "GLIBC_2.2.5", pthread_mutex_t *, const struct timespec *)
REAL(mutex_clocklock, "GLIBC_2.30", pthread_mutex_t *, clockid_t, const struct timespec *)
REAL(mutex_unlock, "GLIBC_2.2.5", pthread_mutex_t *)
REAL(cond_destroy, "GLIBC_2.3.2", pthread_cond_t *)
REAL(cond_wait, "GLIBC_2.3.2", pthread_cond_t *, pthread_mutex_t *)
REAL(cond_timedwait, "GLIBC_2.3.2", pthread_cond_t *, pthread_mutex_t *, const struct timespec *)
REAL(cond_clockwait, "GLIBC_2.30", pthread_cond_t *, pthread_mutex_t *, clockid_t, const struct timespec *)
REAL(cond_signal, "GLIBC_2.3.2", pthread_cond_t *)
REAL(cond_broadcast, "GLIBC_2.3.2", pthread_cond_t *)
REAL(cancel, "GLIBC_2.2.5", pthread_t)

/* ---- Settings ---- */

enum { USUAL_BARGING = 1024, BARGING = LAYOUT_MAX_BARGING_LIMIT + 1 };

static uint32_t barging_of_all = USUAL_BARGING;

void qolb_refuse_(const char *name, const char *value, const char *wanted) {
    dprintf(STDERR_FILENO, "qolb: %s=%s is not %s\n", name, value, wanted);
    _exit(2);
}

/* Reads a number that consists of digits only. Returns 65536 for anything else, and for a greater number. */
static uint32_t number_in(const char *digits) {
    uint32_t number = *digits ? 0 : BARGING;
    for (; *digits && number < BARGING; digits++)
        number = *digits >= '0' && *digits <= '9' ? number * 10 + (uint32_t)(*digits - '0') : BARGING;
    return number < BARGING ? number : BARGING;
}

static void choose_barging(const char *digits) {
    if (!digits) return;
    barging_of_all = number_in(digits);
    if (barging_of_all == BARGING) qolb_refuse_("QOLB_BARGING", digits, "a number from 0, for strict order, to 65535");
}

void qolb_begin_(void) {
    choose_barging(getenv("QOLB_BARGING"));
    qolb_choose_report_(barging_of_all);
}

/* Finds all functions at the program's start. Later, dlvsym could deadlock: it waits for a thread that is in dlopen,
 * and this thread may wait in a constructor for a mutex that the caller has. dlvsym also clears what dlerror would
 * return. */
static void find_all(void) {
    real_mutex_init(), real_mutex_destroy(), real_mutex_lock(), real_mutex_trylock(), real_mutex_timedlock();
    real_mutex_clocklock(), real_mutex_unlock(), real_cond_destroy(), real_cond_wait(), real_cond_timedwait();
    real_cond_clockwait(), real_cond_signal(), real_cond_broadcast(), real_cancel();
}

/* Reads the settings at the program's start, so that a wrong setting does not end a program later. If a mutex was used
 * in .preinit_array, there was no environment at that time, so this reads the settings again. */
__attribute__((constructor)) static void begin(void) {
    qolb_process_();
    qolb_begin_();
    find_all();
}

/* ---- The lock of a mutex (struct line) ---- */

/* Returns a line that serves no mutex, or NULL if there is no memory. */
static struct line *take_line(void) {
    struct line *line = qolb_take_spare_();
    if (line) return line;
    line = qolb_take_memory_(sizeof *line);
    if (!line) return NULL;
    *line = (struct line){0};
    (void)!qolb_lock_open(&line->lock, barging_of_all); /* this succeeds, because the lock is new */
    return line;
}

/* Returns whether nobody uses a line of this process. A thread that has left the line may not have returned yet. */
static int is_free(struct line *line) {
    if (atomic_load(&line->waiting) || try_line(line) != QOLB_GRANTED) return 0;
    leave_line(line);
    return 1;
}

/* A mutex that is replaced says so in two of its words, which the C library uses only in robust mutexes. They are its
 * line, and a number that is right only for this mutex and line in this process. A mutex that was initialised again,
 * perhaps by assignment, says nothing. The same holds for a copy of a mutex, and for a mutex that a child has from its
 * parent. A mutex that stays with the C library because there is no memory says so by LEFT and its own address. */
#define LINE_OF(mutex) ((mutex)->__data.__list.__next)
#define SIGN_OF(mutex) ((mutex)->__data.__list.__prev)
#define LEFT ((void *)1)

static inline uintptr_t sign_of(const pthread_mutex_t *mutex, const struct line *line) {
    return atomic_load_explicit(&qolb_cleared_.process, memory_order_relaxed) ^ (uintptr_t)mutex ^ (uintptr_t)line;
}

static void say(pthread_mutex_t *mutex, void *line, uintptr_t sign) {
    __atomic_store_n(&LINE_OF(mutex), line, __ATOMIC_RELAXED);
    __atomic_store_n(&SIGN_OF(mutex), (void *)sign, __ATOMIC_RELEASE);
}

static inline struct line *said(const pthread_mutex_t *mutex) {
    uintptr_t sign = (uintptr_t)__atomic_load_n(&SIGN_OF(mutex), __ATOMIC_ACQUIRE);
    struct line *line = (void *)__atomic_load_n(&LINE_OF(mutex), __ATOMIC_RELAXED);
    return line && sign == sign_of(mutex, line) ? line : NULL;
}

static int says_nothing(const pthread_mutex_t *mutex) { return !LINE_OF(mutex) && !SIGN_OF(mutex); }

static int is_left(const pthread_mutex_t *mutex) {
    return (void *)LINE_OF(mutex) == LEFT && (const void *)SIGN_OF(mutex) == mutex;
}

static inline int is_ordinary(const pthread_mutex_t *mutex) {
    int kind = mutex->__data.__kind & ~(256 | 512); /* without the flags for lock elision */
    return kind == PTHREAD_MUTEX_NORMAL || kind == PTHREAD_MUTEX_ADAPTIVE_NP;
}

static int is_of_this_process(const struct entry *entry) { return entry->process == qolb_process_(); }

/* Returns whether a thread held the mutex, in the process in which it was last used. */
static int is_held(const struct entry *entry) { return entry->line && is_held_line(entry->line); }

/* Returns the line that the mutex gets. A mutex that was initialised again keeps its line if this is free. Otherwise
 * the line is forgotten, and never used again. */
static struct line *line_for(const struct entry *entry, const pthread_mutex_t *mutex) {
    if (entry->line && is_of_this_process(entry) && (!says_nothing(mutex) || is_free(entry->line))) return entry->line;
    return take_line();
}

static void remove_entry(struct entry *entry) {
    if (is_of_this_process(entry)) {
        if (is_free(entry->line)) qolb_give_spare_(entry->line);
        qolb_count_destroyed_();
    }
    entry->line = NULL;
    __atomic_store_n(&entry->address, NULL, __ATOMIC_RELEASE);
}

/* Leaves the mutex to the C library. */
static void leave(pthread_mutex_t *mutex, struct entry *entry, int held) {
    if (entry) remove_entry(entry);
    say(mutex, LEFT, (uintptr_t)mutex);
    if (held) real_mutex_lock()(mutex);
}

/* Decides whether the mutex is replaced, and returns its line or NULL. The caller has the guard of the mutex's entry.
 */
static struct line *decide_for(pthread_mutex_t *mutex) {
    struct entry *entry = qolb_find_(MUTEXES, mutex);
    int held = entry && !says_nothing(mutex) && !is_of_this_process(entry) && is_held(entry);
    if (!entry) entry = qolb_add_(MUTEXES, mutex);
    struct line *line = entry ? line_for(entry, mutex) : NULL;
    if (!line) {
        leave(mutex, entry, held);
        return NULL;
    }
    if (!is_of_this_process(entry)) qolb_count_mutex_();
    if (line != entry->line) qolb_count_held_(line, held);
    if (held && enter_line(line, FOR_EVER) != QOLB_GRANTED) return NULL;
    entry->line = line;
    entry->process = qolb_process_();
    say(mutex, line, sign_of(mutex, line));
    return line;
}

__attribute__((noinline)) static struct line *decide(pthread_mutex_t *mutex) {
    atomic_uint *guard = qolb_guard_table_(MUTEXES, mutex);
    struct line *line = said(mutex);
    if (!line && !is_left(mutex)) line = decide_for(mutex);
    return_guard(guard);
    return line;
}

/* Returns the line of the mutex, or NULL if the mutex stays with the C library. */
static inline struct line *line_of(pthread_mutex_t *mutex) {
    struct line *line = said(mutex);
    return line ? line : is_ordinary(mutex) ? decide(mutex) : NULL;
}

/* ---- Time ---- */

static int is_time(const struct timespec *end) { return end->tv_nsec >= 0 && end->tv_nsec < 1000000000; }

static int is_clock(clockid_t clock) { return clock == CLOCK_REALTIME || clock == CLOCK_MONOTONIC; }

/* Returns the nanoseconds until `end`, or FOR_EVER for more than 64 bits can hold, which is about 584 years. */
static uint64_t until(clockid_t clock, const struct timespec *end) {
    struct timespec now;
    clock_gettime(clock, &now);
    if (end->tv_sec < now.tv_sec || (end->tv_sec == now.tv_sec && end->tv_nsec <= now.tv_nsec)) return 0;
    uint64_t seconds = (uint64_t)end->tv_sec - (uint64_t)now.tv_sec;
    if (seconds > UINT64_MAX / 1000000000 - 1) return FOR_EVER;
    return seconds * 1000000000 + (uint64_t)end->tv_nsec - (uint64_t)now.tv_nsec;
}

/* ---- Mutexes ---- */

/* Counts the result of entering, and converts it to the error number that the C library returns. */
static inline int told(struct line *line, uint32_t got) {
    qolb_count_(line, got);
    return got == QOLB_GRANTED ? 0 : got == QOLB_BUSY ? EBUSY : got == QOLB_TIMEDOUT ? ETIMEDOUT : EINVAL;
}

/* Leaves the line. After that, another thread may destroy the mutex. */
static inline int unlock(struct line *line) {
    qolb_count_leaving_(line);
    leave_line(line);
    return 0;
}

/* Locks until `end`. As in the C library, an invalid time is an error only if the mutex is not free. */
static int lock_until(struct line *line, clockid_t clock, const struct timespec *end) {
    if (is_time(end)) return told(line, enter_line(line, until(clock, end)));
    uint32_t got = try_line(line);
    return got == QOLB_GRANTED ? told(line, got) : EINVAL;
}

/* The next use of the mutex forgets what it was before. */
int pthread_mutex_init(pthread_mutex_t *mutex, const pthread_mutexattr_t *attributes) {
    int got = real_mutex_init()(mutex, attributes);
    if (got == 0) say(mutex, NULL, 0);
    return got;
}

int pthread_mutex_destroy(pthread_mutex_t *mutex) {
    int ordinary = is_ordinary(mutex), busy = 0;
    atomic_uint *guard = qolb_guard_table_(MUTEXES, mutex);
    struct entry *entry = qolb_find_(MUTEXES, mutex);
    if (entry && ordinary && !says_nothing(mutex))
        busy = is_of_this_process(entry) ? !is_free(entry->line) : is_held(entry);
    if (entry && !busy) remove_entry(entry);
    return_guard(guard);
    int got = busy ? EBUSY : real_mutex_destroy()(mutex);
    if (got == 0 && ordinary) say(mutex, NULL, 0);
    return got;
}

int pthread_mutex_lock(pthread_mutex_t *mutex) {
    struct line *line = line_of(mutex);
    return line ? told(line, enter_line(line, FOR_EVER)) : real_mutex_lock()(mutex);
}

int pthread_mutex_trylock(pthread_mutex_t *mutex) {
    struct line *line = line_of(mutex);
    return line ? told(line, try_line(line)) : real_mutex_trylock()(mutex);
}

int pthread_mutex_timedlock(pthread_mutex_t *mutex, const struct timespec *end) {
    struct line *line = line_of(mutex);
    return line ? lock_until(line, CLOCK_REALTIME, end) : real_mutex_timedlock()(mutex, end);
}

int pthread_mutex_clocklock(pthread_mutex_t *mutex, clockid_t clock, const struct timespec *end) {
    struct line *line = is_clock(clock) ? line_of(mutex) : NULL;
    return line ? lock_until(line, clock, end) : real_mutex_clocklock()(mutex, clock, end);
}

int pthread_mutex_unlock(pthread_mutex_t *mutex) {
    struct line *line = line_of(mutex);
    return line ? unlock(line) : real_mutex_unlock()(mutex);
}

/* ---- Condition variables ---- */

/* The condition at which the thread waits with a line. */
static BY_THREAD struct {
    qolb_cond *at;
    unsigned cancels; /* the number of cancelled threads before this one checked whether it is cancelled */
} own_wait;

/* The number of threads that have been cancelled. */
static atomic_uint cancels;

static int is_waited_at(const struct entry *entry) {
    return is_of_this_process(entry) && __atomic_load_n(&entry->cond.own, __ATOMIC_SEQ_CST);
}

/* Returns the qolb_cond of a condition variable, which is made if it has none, or NULL if there is no memory. After a
 * fork the child makes a new one, because it does not have the threads that waited in the parent. */
static qolb_cond *cond_of(const pthread_cond_t *condition) {
    atomic_uint *guard = qolb_guard_table_(CONDITIONS, condition);
    struct entry *entry = qolb_find_(CONDITIONS, condition);
    if (!entry) entry = qolb_add_(CONDITIONS, condition);
    if (entry && !is_of_this_process(entry)) {
        entry->cond = (qolb_cond)QOLB_COND_INIT;
        entry->process = qolb_process_();
    }
    return_guard(guard);
    return entry ? &entry->cond : NULL;
}

/* Waits for a moment and returns for no reason, because there is no memory for a qolb_cond. */
static int wait_a_moment(struct line *line, uint64_t nanoseconds) {
    enum { MOMENT = 1000000 };
    atomic_uint word = 0;
    unlock(line);
    qolb_sleep_at_(&word, 0, nanoseconds < MOMENT ? nanoseconds : MOMENT);
    told(line, enter_line(line, FOR_EVER));
    pthread_testcancel();
    return nanoseconds <= MOMENT ? ETIMEDOUT : 0;
}

/* Waits at a condition with a line, for at most `nanoseconds`, and enters the line again. As in the C library, a thread
 * can be cancelled here, and then has the mutex locked. */
static int wait_at(struct line *line, pthread_cond_t *condition, uint64_t nanoseconds) {
    own_wait.cancels = atomic_load(&cancels);
    pthread_testcancel();
    own_wait.at = cond_of(condition);
    if (!own_wait.at) return wait_a_moment(line, nanoseconds);
    qolb_count_leaving_(line);
    atomic_fetch_add(&line->waiting, 1);
    uint32_t got = wait_with_line(own_wait.at, line, nanoseconds);
    if (own_wait.cancels != atomic_load(&cancels)) qolb_cond_broadcast(own_wait.at);
    own_wait.at = NULL;
    atomic_fetch_sub(&line->waiting, 1);
    told(line, QOLB_GRANTED);
    pthread_testcancel();
    return got == QOLB_TIMEDOUT ? ETIMEDOUT : 0;
}

static int wait_until(struct line *line, pthread_cond_t *condition, clockid_t clock, const struct timespec *end) {
    return is_time(end) ? wait_at(line, condition, until(clock, end)) : EINVAL;
}

int pthread_cond_wait(pthread_cond_t *condition, pthread_mutex_t *mutex) {
    struct line *line = line_of(mutex);
    return line ? wait_at(line, condition, FOR_EVER) : real_cond_wait()(condition, mutex);
}

int pthread_cond_timedwait(pthread_cond_t *condition, pthread_mutex_t *mutex, const struct timespec *end) {
    struct line *line = line_of(mutex);
    clockid_t clock = condition->__data.__wrefs & 2 ? CLOCK_MONOTONIC : CLOCK_REALTIME;
    return line ? wait_until(line, condition, clock, end) : real_cond_timedwait()(condition, mutex, end);
}

int pthread_cond_clockwait(pthread_cond_t *condition, pthread_mutex_t *mutex, clockid_t clock,
                           const struct timespec *end) {
    struct line *line = is_clock(clock) ? line_of(mutex) : NULL;
    return line ? wait_until(line, condition, clock, end) : real_cond_clockwait()(condition, mutex, clock, end);
}

/* Returns the qolb_cond of a condition variable at which threads wait with lines, or NULL if no thread does. */
static qolb_cond *waited_at(const pthread_cond_t *condition) {
    atomic_uint *guard = qolb_guard_table_(CONDITIONS, condition);
    struct entry *entry = qolb_find_(CONDITIONS, condition);
    qolb_cond *cond = entry && is_waited_at(entry) ? &entry->cond : NULL;
    return_guard(guard);
    return cond;
}

/* The condition of the C library is signalled as well, because a thread may wait there with a mutex of the C library.
 * POSIX allows a signal to wake more than one thread. */
int pthread_cond_signal(pthread_cond_t *condition) {
    qolb_cond *cond = waited_at(condition);
    if (cond) qolb_cond_signal(cond);
    return real_cond_signal()(condition);
}

int pthread_cond_broadcast(pthread_cond_t *condition) {
    qolb_cond *cond = waited_at(condition);
    if (cond) qolb_cond_broadcast(cond);
    return real_cond_broadcast()(condition);
}

int pthread_cond_destroy(pthread_cond_t *condition) {
    atomic_uint *guard = qolb_guard_table_(CONDITIONS, condition);
    struct entry *entry = qolb_find_(CONDITIONS, condition);
    int waited = entry && is_waited_at(entry);
    if (entry && !waited) __atomic_store_n(&entry->address, NULL, __ATOMIC_RELEASE);
    return_guard(guard);
    return waited ? EBUSY : real_cond_destroy()(condition);
}

/* ---- Cancelling ----
 *
 * A thread that is cancelled while it waits with a line has to return. Therefore the thread that cancels it wakes all
 * threads that wait with lines; a wait may return for no reason. A waiter puts itself into its list before it sleeps,
 * and then loads the number of cancelled threads. The cancelling thread adds 1 to this number before it looks at the
 * lists. So one of the two sees the other.
 *
 * A thread that is cancelled before it is in its list may receive a signal before it sleeps. It ends nevertheless, so
 * another waiter has to get this signal. Therefore a waiter loads the number again after its wait. If the number has
 * changed, the waiter wakes all threads that wait at the condition. If the waiter is cancelled after this load, the
 * cancelling thread looks at the lists even later. The condition may have been destroyed meanwhile. Its entry stays,
 * perhaps for another condition, whose waiters return for no reason. */

static void wake_all(struct entry *entry) {
    if (is_waited_at(entry)) qolb_cond_broadcast(&entry->cond);
}

int pthread_cancel(pthread_t thread) {
    int got = real_cancel()(thread);
    atomic_fetch_add(&cancels, 1);
    qolb_for_each_(CONDITIONS, wake_all);
    return got;
}

/* Replaces the sleep of the library, by the linker's option --wrap. A thread at a condition sleeps while its word is 0.
 */
HIDDEN void __real_qolb_sleep_at_(atomic_uint *word, unsigned value, uint64_t nanoseconds);
HIDDEN void __wrap_qolb_sleep_at_(atomic_uint *word, unsigned value, uint64_t nanoseconds);

void __wrap_qolb_sleep_at_(atomic_uint *word, unsigned value, uint64_t nanoseconds) {
    unsigned now = atomic_load(&cancels);
    if (value == 0 && own_wait.at && own_wait.cancels != now) {
        own_wait.cancels = now;
        qolb_cond_broadcast(own_wait.at);
    } else {
        __real_qolb_sleep_at_(word, value, nanoseconds);
    }
}

/* ---- Versions (preload.map) ----
 *
 * These functions have two versions, because they moved from libpthread to libc in glibc 2.34. preload.map has the
 * functions with one version. */

#define VERSIONS(name, older, newer)                                             \
    extern __typeof__(name) name##_older __attribute__((alias(#name), nothrow)); \
    __asm__(".symver " #name "_older, " #name "@" older);                        \
    __asm__(".symver " #name ", " #name "@@@" newer)

VERSIONS(pthread_mutex_trylock, "GLIBC_2.2.5", "GLIBC_2.34");
VERSIONS(pthread_mutex_timedlock, "GLIBC_2.2.5", "GLIBC_2.34");
VERSIONS(pthread_mutex_clocklock, "GLIBC_2.30", "GLIBC_2.34");
VERSIONS(pthread_cond_clockwait, "GLIBC_2.30", "GLIBC_2.34");
VERSIONS(pthread_cancel, "GLIBC_2.2.5", "GLIBC_2.34");
