/* Measures how long it takes to move a cache line from one processor to another. peers.c and phases.h use this
 * header. */
#ifndef HAND_OVER_H
#define HAND_OVER_H

#include "clock.h"
#include <pthread.h>
#include <stdatomic.h>
#include <stdio.h>

static atomic_int ball;
enum { THROWS = 20000, WARM = 2000 };

static void *throw_back(void *processor) {
    stay_at((int)(long)processor);
    for (int k = 0; k < THROWS; k++) {
        while (atomic_load(&ball) != 2 * k + 1) continue;
        atomic_store(&ball, 2 * k + 2);
    }
    return NULL;
}

/* Returns the time from one of these processors to the other, in nanoseconds. */
static double hand_over(int a, int b) {
    pthread_t other;
    uint64_t since = 0;
    atomic_store(&ball, 0);
    if (pthread_create(&other, NULL, throw_back, (void *)(long)b)) abort();
    stay_at(a);
    for (int k = 0; k < THROWS; k++) {
        if (k == WARM) since = now();
        atomic_store(&ball, 2 * k + 1);
        while (atomic_load(&ball) != 2 * k + 2) continue;
    }
    double each = (double)(now() - since) / (2 * (THROWS - WARM));
    pthread_join(other, NULL);
    return each;
}

/* Prints the times between each two of these processors. */
static void print_hand_overs(const int *processors, int many) {
    cpu_set_t before;
    if (sched_getaffinity(0, sizeof before, &before)) abort();
    printf("# a hand-over between processors, ns:");
    for (int a = 0; a < many; a++)
        for (int b = a + 1; b < many; b++)
            printf(" %d-%d %.0f", processors[a], processors[b], hand_over(processors[a], processors[b]));
    puts("");
    if (sched_setaffinity(0, sizeof before, &before)) abort();
}

#endif
