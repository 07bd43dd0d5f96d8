/* The clock for all benchmarks, and a function that pins a thread to one processor. */
#ifndef CLOCK_H
#define CLOCK_H

#include <sched.h>
#include <stdint.h>
#include <stdlib.h>
#include <time.h>

/* Returns the time in nanoseconds. */
static inline uint64_t now(void) {
    struct timespec time;
    if (clock_gettime(CLOCK_MONOTONIC, &time)) abort();
    return (uint64_t)time.tv_sec * 1000000000 + (uint64_t)time.tv_nsec;
}

static inline void stay_at(int processor) {
    cpu_set_t set;
    CPU_ZERO(&set);
    CPU_SET(processor, &set);
    if (sched_setaffinity(0, sizeof set, &set)) abort();
}

#endif
