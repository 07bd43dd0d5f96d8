/* Helper functions for tests with waiting threads: they check results, read the clock, and wait until another thread
 * sleeps. */
#ifndef WAITERS_H
#define WAITERS_H

#include "want.h"
#include <pthread.h>
#include <sched.h>
#include <stdatomic.h>
#include <stdint.h>
#include <stdio.h>
#include <stdlib.h>
#include <sys/resource.h>
#include <time.h>
#include <unistd.h>

enum { US = 1000, MS = 1000000 };

static inline double seconds(clockid_t clock) {
    struct timespec time;
    clock_gettime(clock, &time);
    return (double)time.tv_sec + (double)time.tv_nsec / 1e9;
}

/* What the calling thread has used: seconds of processor time, and how often it gave the processor up to sleep. */
struct used {
    double processor;
    long sleeps;
};

static inline struct used used(void) {
    struct rusage it;
    getrusage(RUSAGE_THREAD, &it);
    return (struct used){(double)(it.ru_utime.tv_sec + it.ru_stime.tv_sec) +
                             (double)(it.ru_utime.tv_usec + it.ru_stime.tv_usec) / 1e6,
                         it.ru_nvcsw};
}

/* Reports the number of a thread right before it waits, so that it sleeps nowhere else afterwards. */
static inline void about_to_wait(atomic_int *number) { atomic_store(number, gettid()); }

/* Waits until the thread that reports this number sleeps or has ended. By then it has made its request. */
static inline void until_asleep(atomic_int *number) {
    char name[64], state = 'R';
    while (atomic_load(number) == 0) sched_yield();
    snprintf(name, sizeof name, "/proc/self/task/%d/stat", atomic_load(number));
    while (state != 'S') {
        FILE *stat = fopen(name, "r");
        if (!stat) return;
        if (fscanf(stat, "%*d (%*[^)]) %c", &state) != 1) state = 'R';
        fclose(stat);
        usleep(200);
    }
}

static inline uint32_t drawn(uint32_t *seed) { return (*seed = *seed * 1664525 + 1013904223) >> 8; }

#endif
