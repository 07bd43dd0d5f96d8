/* Measures the length of a pause, counts the processors, and decides when yields are worthwhile (spin.h). This file is
 * tested, but not proved. */
#define _GNU_SOURCE
#include "spin.h"
#include "futex.h"
#include <errno.h>
#include <sched.h>
#ifdef __linux__
#include <unistd.h>
#endif

_Alignas(APART) atomic_uint qolb_pauses_, qolb_processors_;
BY_THREAD unsigned qolb_learned_[SPINS];

/* ---- Counting ---- */

enum { TIMED_PAUSES = 64, MAX_PAUSES = 1024, MAX_PROCESSORS = 8192 };
/* Where the system does not tell how many processors there are. */
enum { SOME_PROCESSORS = 4 };

/* The time of 64 pauses, by the quickest of five runs: in another one the thread may have lost the processor. */
static uint64_t time_pauses(void) {
    uint64_t least = UINT64_MAX;
    for (int run = 0; run < 5; run++) {
        uint64_t since = qolb_now_();
        for (int k = 0; k < TIMED_PAUSES; k++) __builtin_ia32_pause();
        uint64_t took = qolb_now_() - since;
        if (took < least) least = took;
    }
    return least;
}

#ifdef __linux__
/* Which processors a thread may use. The number 0 is the calling thread. */
struct processors {
    int many, first;
};

static struct processors processors_of(pid_t thread) {
    static const struct processors unknown = {0, -1};
    cpu_set_t set[MAX_PROCESSORS / CPU_SETSIZE];
    if (sched_getaffinity(thread, sizeof set, set) != 0) return unknown;
    struct processors found = {CPU_COUNT_S(sizeof set, set), 0};
    if (found.many == 0) return unknown;
    while (!CPU_ISSET_S(found.first, sizeof set, set)) found.first++;
    return found;
}

/* How many processors the process may use. A program may keep its threads each at a processor of its own: so it is
 * taken to have one only if its first thread has the same one, and each wait asks again. */
static unsigned count_processors(void) {
    int kept = errno;
    struct processors own = processors_of(0), whole = own.many == 1 ? processors_of(getpid()) : own;
    long all = whole.many > 1 || (whole.many == 1 && whole.first == own.first) ? whole.many
                                                                               : sysconf(_SC_NPROCESSORS_ONLN);
    errno = kept;
    return all > 0 ? (unsigned)all : SOME_PROCESSORS;
}
#else
static unsigned count_processors(void) { return SOME_PROCESSORS; }
#endif

/* Threads that count at the same time count nearly the same. */
unsigned qolb_count_pauses_(void) {
    unsigned many = count_processors();
    if (many == 1) return 0;
    uint64_t took = time_pauses();
    uint64_t pauses = took ? TIMED_PAUSES * 1024 / took : MAX_PAUSES;
    unsigned counted = pauses > MAX_PAUSES ? MAX_PAUSES : pauses ? (unsigned)pauses : 1;
    atomic_store_explicit(&qolb_processors_, many, memory_order_relaxed);
    atomic_store_explicit(&qolb_pauses_, counted, memory_order_release);
    return counted;
}

/* ---- Yields ---- */

/* The dear yields that are counted, and until when there are none. All threads write it without care: a change that is
 * lost is made up by the next ones. It is not written while no yield is dear. */
static _Alignas(APART) struct {
    atomic_uint dear;
    _Atomic uint64_t rest;
} yields;

static void rest_until(uint64_t time) { atomic_store_explicit(&yields.rest, time, memory_order_relaxed); }

static void count_yield(unsigned was, int is_dear, uint64_t now) {
    unsigned more = was + YIELD_COUNTS < YIELDS_COUNTED ? was + YIELD_COUNTS : YIELDS_COUNTED;
    unsigned dear = is_dear ? more : was > 0 ? was - 1 : 0;
    if (dear != was) atomic_store_explicit(&yields.dear, dear, memory_order_relaxed);
    if (is_dear && dear == YIELDS_COUNTED) rest_until(now + YIELDS_REST);
}

/* After a rest the first thread that yields finds out for all others whether yields are still dear. */
int qolb_yield_(void) {
    unsigned dear = atomic_load_explicit(&yields.dear, memory_order_relaxed);
    uint64_t since = qolb_now_();
    if (dear == YIELDS_COUNTED) {
        if (since < atomic_load_explicit(&yields.rest, memory_order_relaxed)) return 0;
        rest_until(since + YIELDS_REST);
    }
    sched_yield();
    uint64_t now = qolb_now_();
    count_yield(dear, now - since >= YIELD_DEAR, now);
    return 1;
}
