/* Reads the clock, and puts threads to sleep and wakes them (futex.h). On Linux this file makes futex calls; the calls
 * for locks pass a bit set, so that a wake-up reaches only one class of sleepers. On other systems a sleeping thread
 * wakes every 200 us and checks the word. This file is tested, but not proved. */
#define _GNU_SOURCE
#include "futex.h"
#include <errno.h>
#include <time.h>
#ifdef __linux__
#include <sys/syscall.h>
#include <unistd.h>
#else
#include <pthread.h>
#endif

uint64_t qolb_now_(void) {
    struct timespec time;
    clock_gettime(CLOCK_MONOTONIC, &time);
    return (uint64_t)time.tv_sec * 1000000000 + (uint64_t)time.tv_nsec;
}

enum { IN_SECOND = 1000000000 };

#ifdef __linux__

static void futex(void *word, int what, unsigned value, const struct timespec *time, unsigned classes) {
    int kept = errno;
    syscall(SYS_futex, word, what, value, time, NULL, classes);
    errno = kept;
}

void qolb_sleep_at_(atomic_uint *word, unsigned value, uint64_t nanoseconds) {
    struct timespec most = {(time_t)(nanoseconds / IN_SECOND), (long)(nanoseconds % IN_SECOND)};
    futex(word, 128 /* FUTEX_WAIT_PRIVATE */, value, nanoseconds == FOR_EVER ? NULL : &most, 0);
}

void qolb_wake_at_(atomic_uint *word, int most) { futex(word, 129 /* FUTEX_WAKE_PRIVATE */, (unsigned)most, NULL, 0); }

void qolb_park_(uint32_t *half, uint32_t value, uint32_t classes, uint64_t until) {
    struct timespec end = {(time_t)(until / IN_SECOND), (long)(until % IN_SECOND)};
    futex(half, 137 /* FUTEX_WAIT_BITSET_PRIVATE, until a time of CLOCK_MONOTONIC */, value,
          until == FOR_EVER ? NULL : &end, classes);
}

void qolb_unpark_(uint32_t *half, uint32_t classes) {
    futex(half, 138 /* FUTEX_WAKE_BITSET_PRIVATE */, INT32_MAX, NULL, classes);
}

#else

/* A thread that is cancelled meanwhile sleeps on, because otherwise its request would stay in the queue. */
void qolb_sleep_at_(atomic_uint *word, unsigned value, uint64_t nanoseconds) {
    struct timespec nap = {0, nanoseconds < 200000 ? (long)nanoseconds : 200000};
    int cancels, kept = errno;
    if (atomic_load(word) != value) return;
    pthread_setcancelstate(PTHREAD_CANCEL_DISABLE, &cancels);
    nanosleep(&nap, NULL);
    pthread_setcancelstate(cancels, &cancels);
    errno = kept;
}

void qolb_wake_at_(atomic_uint *word, int most) { (void)word, (void)most; }

void qolb_park_(uint32_t *half, uint32_t value, uint32_t classes, uint64_t until) {
    (void)classes;
    if (!is_over(until)) qolb_sleep_at_((atomic_uint *)half, value, FOR_EVER);
}

void qolb_unpark_(uint32_t *half, uint32_t classes) { (void)half, (void)classes; }

#endif
