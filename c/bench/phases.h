/* Measures several ways of acquiring a line or lock in one program, in short alternating phases, and measures
 * hand-overs between processors. nodes.c includes this file, and phases.py runs the program. nodes.c defines an enum of
 * the ways (its last member is WAYS), the names of the ways, and the functions that this header declares.
 *
 * The speed of a lock depends on its address. Therefore each way has PLACES lines or locks at different addresses, and
 * uses one after the other. */
#ifndef PHASES_H
#define PHASES_H

#include "hand_over.h"
#include <ck_pr.h>
#include <ck_spinlock.h>
#include <pthread.h>
#include <stdatomic.h>
#include <stdint.h>
#include <stdio.h>
#include <stdlib.h>
#include <string.h>
#include <unistd.h>

enum { MOST = 64, PLACES = 8, PHASES = 20000, MOST_PROCESSORS = 8, PAGE = 4096, APART = 128, BINS = 976 };

static int is_timed(int by);
static void enter(long thread, enum way by, int at);
static void leave(long thread, enum way by, int at);
/* The first is called before a phase, by the thread that begins it. The second is called by each thread at the end of
 * its part. */
static void begin_phase(enum way by, int at);
static void end_phase(long thread, enum way by, int at);

/* ---- Time ---- */

/* There are 16 bins for each power of two. */
static unsigned bin_of(uint64_t ns) {
    unsigned log = 63 - (unsigned)__builtin_clzll(ns | 16);
    return (log - 4) * 16 + (unsigned)(ns >> (log - 4) & 15);
}

static double least_of(unsigned bin) { return bin < 16 ? bin : (double)((uint64_t)(16 + bin % 16) << bin / 16); }

/* ---- Concurrency Kit's MCS lock, whose waiter yields once it has looked SPINS times ---- */

enum { SPINS = 256 };

static void enter_mcs_yielding(ck_spinlock_mcs_t *lock, ck_spinlock_mcs_context_t *me) {
    me->locked = 1;
    me->next = NULL;
    ck_pr_fence_store_atomic();
    ck_spinlock_mcs_context_t *before = ck_pr_fas_ptr(lock, me);
    if (before) {
        ck_pr_store_ptr(&before->next, me);
        for (int looks = 0; ck_pr_load_uint(&me->locked); looks++)
            if (looks < SPINS) ck_pr_stall();
            else sched_yield();
    }
    ck_pr_fence_lock();
}

/* ---- Phases ---- */

/* The processors, and whether thread k stays at the k-th of them. */
static int processors[MOST_PROCESSORS] = {0, 1, 2, 3}, many_processors = 4, pinned;
static int threads;
static uint64_t turn_ns, phase_ns;
/* The number of the phase, its way and place, whether it is over, how many threads have begun and ended it, and its
 * length. */
static _Alignas(APART) atomic_int phase;
static enum way way;
static int place;
static _Alignas(APART) atomic_int over;
static _Alignas(APART) atomic_int begun, ended;
static _Atomic uint64_t since; /* when the phase began: a thread may be late to run */
static uint64_t took;

static struct {
    _Alignas(PAGE) uint64_t turns, longest;
    unsigned waits[BINS]; /* the number of waits in each bin (bin_of) */
} did[MOST];

/* Acquires and releases until the phase is over. It times each wait if critical sections have a length, and otherwise
 * every 64th. */
static void take_turns(long k) {
    enum way by = way;
    int at = place;
    uint64_t turns = 0, longest = 0;
    memset(did[k].waits, 0, sizeof did[k].waits);
    for (; !atomic_load_explicit(&over, memory_order_relaxed); turns++) {
        int timed = turn_ns || turns % 64 == 0;
        uint64_t asked = timed ? now() : 0;
        enter(k, by, at);
        uint64_t came = timed ? now() : 0;
        if (timed) did[k].waits[bin_of(came - asked)]++;
        if (came - asked > longest) longest = came - asked;
        while (turn_ns && now() - came < turn_ns) continue;
        leave(k, by, at);
        if (k == 0 && timed && now() - since > phase_ns) took = now() - since, atomic_store(&over, 1);
    }
    end_phase(k, by, at);
    did[k].turns = turns;
    did[k].longest = longest;
}

static void *work(void *number) {
    long k = (long)number;
    if (pinned) stay_at(processors[k % many_processors]);
    for (int p = 1;; p++) {
        while (atomic_load(&phase) < p) usleep(20);
        if (way == WAYS) return NULL;
        atomic_store(&since, now());
        atomic_fetch_add(&begun, 1);
        while (atomic_load(&begun) < p * threads) sched_yield();
        take_turns(k);
        atomic_fetch_add(&ended, 1);
    }
}

static void *loop(void *number) {
    stay_at((int)(long)number);
    for (;;) __asm__ volatile("");
    return NULL;
}

static struct {
    double times[PHASES], longest[PHASES], turns, took;
    uint64_t waits[BINS], all_waits;
    int many;
} found[WAYS];

static void run_phase(int number, enum way by, int at) {
    way = by;
    place = at;
    begin_phase(by, at);
    atomic_store(&over, 0);
    atomic_store(&ended, 0);
    atomic_store(&phase, number);
    while (atomic_load(&ended) < threads) usleep(50);
    uint64_t turns = 0, longest = 0;
    for (int k = 0; k < threads; k++) {
        turns += did[k].turns;
        if (did[k].longest > longest) longest = did[k].longest;
        for (int bin = 0; bin < BINS; bin++) {
            found[by].waits[bin] += did[k].waits[bin];
            found[by].all_waits += did[k].waits[bin];
        }
    }
    if (found[by].many == PHASES || turns == 0) return;
    found[by].longest[found[by].many] = (double)longest / 1000;
    found[by].times[found[by].many++] = (double)took / (double)turns;
    found[by].turns += (double)turns;
    found[by].took += (double)took;
}

/* Runs a phase of each way that is measured, one after the other, until these seconds have passed. */
static void run_phases(double seconds) {
    pthread_t id;
    for (long k = 0; k < threads; k++)
        if (pthread_create(&id, NULL, work, (void *)k)) exit(3);
    uint64_t first = now();
    for (int round = 0, number = 0; (double)(now() - first) < seconds * 1e9; round++)
        for (int k = 0; k < WAYS; k++)
            if (is_timed((k + round) % WAYS)) run_phase(++number, (enum way)((k + round) % WAYS), round % PLACES);
}

static void begin_loops(void) {
    pthread_t id;
    for (int p = 0; p < many_processors; p++)
        if (pthread_create(&id, NULL, loop, (void *)(long)processors[p])) exit(3);
}

static int by_size(const void *a, const void *b) {
    double x = *(const double *)a, y = *(const double *)b;
    return (x > y) - (x < y);
}

static void sort_phases(void) {
    for (int k = 0; k < WAYS; k++) {
        qsort(found[k].times, (size_t)found[k].many, sizeof(double), by_size);
        qsort(found[k].longest, (size_t)found[k].many, sizeof(double), by_size);
    }
}

static double part(const double *sorted, int many, double of) { return many ? sorted[(int)((many - 1) * of)] : 0; }

/* Returns the 99.9th percentile of the timed waits of this way, in microseconds. */
static double wait_999(int by) {
    uint64_t before = 0;
    for (unsigned bin = 0; bin < BINS; bin++)
        if ((before += found[by].waits[bin]) * 1000 >= found[by].all_waits * 999) return least_of(bin) / 1000;
    return 0;
}

/* ---- The machine ---- */

static int print_machine(void) {
    enum { PAUSES = 100000 };
    uint64_t since = now();
    for (int k = 0; k < PAUSES; k++) __builtin_ia32_pause();
    printf("# a pause, ns: %.1f\n", (double)(now() - since) / PAUSES);
    print_hand_overs(processors, many_processors);
    return 0;
}

/* ---- The program ---- */

/* Reads the list of processors from a word such as at=0,2,1,3. Thread k stays at the k-th of them. */
static int take_processors(const char *word) {
    char *rest = (char *)(uintptr_t)word + 3;
    if (strncmp(word, "at=", 3) != 0) return 0;
    for (many_processors = 0; *rest && many_processors < MOST_PROCESSORS; rest += *rest == ',')
        processors[many_processors++] = (int)strtol(rest, &rest, 10);
    return pinned = many_processors > 0;
}

/* Reads the arguments THREADS MICROSECONDS PHASE_MS SECONDS at=.. */
static int take_arguments(int argc, char **argv) {
    if (argc < 6 || !take_processors(argv[5]) || atoi(argv[1]) < 1 || atoi(argv[1]) > MOST) return 0;
    threads = atoi(argv[1]);
    turn_ns = (uint64_t)(atof(argv[2]) * 1e3);
    phase_ns = (uint64_t)(atof(argv[3]) * 1e6);
    return 1;
}

static void print_ways(void) {
    sort_phases();
    for (int k = 0; k < WAYS; k++) {
        const double *times = found[k].times;
        int many = found[k].many;
        if (is_timed(k))
            printf("%s\t%d\t%.1f\t%.1f\t%.1f\t%.1f\t%.1f\t%.1f\n", names[k], many, part(times, many, .5),
                   part(times, many, .25), part(times, many, .75), found[k].took / found[k].turns, wait_999(k),
                   part(found[k].longest, many, .5));
    }
}

#endif
