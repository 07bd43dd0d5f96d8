/* How a thread waits: how long it spins before it sleeps, how long it pauses between two polls, and when it yields.
 * Nodes and locks share this policy; docs/DECISIONS.md, "Waiting", lists the alternatives that were tried. Only files
 * of the library include this header.
 *
 * A waiter in a queue polls until its turn has come. A poll takes the cache line away from the thread that is about to
 * grant the turn, so the pauses of a waiter are longer the more threads are before it (Mellor-Crummey and Scott, TOCS
 * 1991). The number of threads before the waiter also determines how long it spins:
 *
 *   fewer threads than processors     50 us, or 1 us for each thread if that is longer: all may be running
 *   fewer than twice the processors   50 us; in the queue of a barging lock 2 us
 *   more                              2 us
 *   unknown                           20 us
 *
 * If a waiter has seen as many threads before it as there are processors, not all of these threads can run at once.
 * While fewer than twice as many threads as processors are before such a waiter, it yields instead of pausing, because
 * a thread that is nearer to its turn may need this processor.
 *
 * After spinning, the waiter sleeps. Sleeping and waking cost about 50 us, so a wait takes at most about twice the time
 * of the best possible choice (Karlin and others, SOSP 1991). Where other programs compete for the processors, a
 * spinning thread may keep the holder from running. Therefore each thread adapts the time limit of its spins. A spin
 * that ends in sleep halves the limit for the thread's next spin, and at the beginning of each spin the limit grows by
 * one eighth.
 *
 * A thread that finds a barging lock taken spins in another way before it joins the queue: it polls the lock word, and
 * each pause is twice as long as the previous one.
 *
 * A yield gives the processor to another thread that can run. If that thread belongs to another program, the yield can
 * waste a whole time slice. After several such yields, the process stops yielding for a while (spin.c).
 *
 * A spin counts only its pauses, so yields and preemption make it longer than the given times. On a machine with one
 * processor no thread spins. */
#ifndef QOLB_SPIN_H
#define QOLB_SPIN_H

#include "common.h"
#include <limits.h>
#include <stdatomic.h>
#include <stdint.h>

/* ---- The policy, in nanoseconds ---- */

/* How long a waiter in a queue spins before it sleeps, at most. */
enum {
    SPIN_NEAR = 50000,    /* as long as a sleep and a wake take */
    SPIN_EACH = 1000,     /* for each thread before it, if that is more: as long as a short turn may take */
    SPIN_FAR = 2000,      /* its turn is farther away; also the least that a thread learns */
    SPIN_UNKNOWN = 20000, /* it does not know how many threads are before it */
    SPIN_WOKEN = 10000    /* the least that a thread learns for a spin after a sleep, because a waiter is woken ahead
                           * of its turn, and a wake takes about as long */
};

/* Its pauses between two polls. */
enum {
    POLL_PAUSE = 90,     /* of a lock's waiter that is next */
    NODE_PAUSE = 60,     /* of a node: nobody else polls its word */
    POLL_FARTHER = 150,  /* more for each other thread before it, until it has seen how long hand-overs take */
    POLL_FARTHEST = 500, /* the most for each, since critical sections differ */
    POLL_PART = 75       /* of a hand-over, in hundredths: a waiter that looks late delays all behind it */
};

/* How fast a thread learns: by a part of what it knows. */
enum { GROWS_BY = 8, SHRINKS_BY = 2 };

/* A thread that finds a barging lock taken: how long it pauses in all before it queues; its first pause, and the
 * longest one, which is double the time of a short critical section with a thought behind it; and how long it has
 * paused when it begins to yield before each look. */
enum { BARGE_SPIN = 10000, BARGE_PAUSE = 200, BARGE_LONGEST = 4000, BARGE_YIELD_FROM = 200 };

/* The queue head of a barging lock (lock/enter.c): its pause between two looks, POLL_PAUSE once it has requested the
 * lock; how long it has looked at a taken lock, and was overtaken, when it requests it; and how long after it first
 * slept, since a lock that is reserved for a sleeping thread is idle until that is awake. */
enum { WATCH_PAUSE = 300, WATCH_PATIENCE = 2000, SLEEPER_PATIENCE = 1000000 };

/* Yields. Each counts as 500 ns of a spin, so that a spin ends after a hundred of them. A node knows only how many
 * threads may be before it, so it yields once it has spun for 500 ns. */
enum { YIELD_SPUN = 500, YIELD_UNSURE = 500 };
#define NO_YIELDS UINT_MAX

/* A yield that lasts 1 ms is dear (spin.c): a thread of this program would have given the processor back sooner. Each
 * dear one counts as many others. Once so many are counted there are none for a quarter of a second. */
enum { YIELD_DEAR = 1000000, YIELD_COUNTS = 2, YIELDS_COUNTED = 16, YIELDS_REST = 250000000 };

/* The number of threads before a waiter, if it can't be told. */
#define UNKNOWN_TURNS UINT64_MAX

/* ---- The machine ---- */

/* How many instructions `pause` take 1,024 ns, which is counted once: they take 10 to 140 cycles, by the processor; and
 * how many processors the process may use. 0: not counted, or the process may use one processor only. */
extern __attribute__((visibility("hidden"))) atomic_uint qolb_pauses_, qolb_processors_;

/* Counts both, unless the process may use one processor only: then 0. */
__attribute__((visibility("hidden"))) unsigned qolb_count_pauses_(void);

static inline unsigned pauses_in_1024(void) {
    unsigned counted = atomic_load_explicit(&qolb_pauses_, memory_order_acquire);
    return counted ? counted : qolb_count_pauses_();
}

static inline unsigned processors(void) { return atomic_load_explicit(&qolb_processors_, memory_order_relaxed); }

/* Pauses for these nanoseconds, at most 1,000,000; returns 0, at once, if the process may use one processor only. */
static inline int qolb_pause_(unsigned nanoseconds) {
    unsigned each = pauses_in_1024();
    if (each == 0) return 0;
    unsigned pauses = (each * nanoseconds + 512) / 1024;
    do __builtin_ia32_pause();
    while (pauses-- > 1);
    return 1;
}

/* Lets another thread have the processor, and returns 1; or 0, at once, while yields are dear. */
__attribute__((visibility("hidden"))) int qolb_yield_(void);

/* ---- Waiting in a queue ---- */

/* What a waiter has spun since it last slept in this wait. {0} when the wait begins, but for `yields_from`. */
struct spin {
    unsigned spun, most;  /* nanoseconds: so far, and when it is to end */
    unsigned yields_from; /* it does not yield before it has spun for so long; or NO_YIELDS */
    int slept;            /* it has slept in this wait, or was told to */
    int crowded;          /* in this wait at least as many threads were before it as there are processors */
    /* The number of threads before it: when it began, and at the last look. */
    uint64_t first, before;
};

enum { FIRST_SPIN, WOKEN_SPIN, HEAD_SPIN, SPINS };

/* The length of the thread's next spins, in nanoseconds: without a sleep in the same wait, after one, and as the queue
 * head of a barging lock. 0 or SPIN_NEAR: as long as may be. */
extern __attribute__((visibility("hidden"))) BY_THREAD unsigned qolb_learned_[SPINS];

/* Whether it may yield in place of a pause: if its turn is not too far for that. */
static inline int is_near_enough_to_yield(const struct spin *spin) {
    return spin->before < (uint64_t)2 * processors() && spin->yields_from != NO_YIELDS;
}

/* Whether it yields in place of a pause. */
static inline int is_to_yield(const struct spin *spin) {
    return spin->crowded && is_near_enough_to_yield(spin) && spin->spun >= spin->yields_from;
}

static inline unsigned longest_spin(const struct spin *spin) {
    if (spin->before == UNKNOWN_TURNS) return SPIN_UNKNOWN;
    if (spin->before >= processors()) return is_near_enough_to_yield(spin) ? SPIN_NEAR : SPIN_FAR;
    return spin->before * SPIN_EACH > SPIN_NEAR ? (unsigned)spin->before * SPIN_EACH : SPIN_NEAR;
}

/* The length of a spin that begins. */
static inline unsigned begin_spin(unsigned *learned) {
    unsigned grown = *learned + *learned / GROWS_BY;
    return *learned = *learned && grown < SPIN_NEAR ? grown : SPIN_NEAR;
}

/* A spin that ends at once, as the turn is far, says nothing of the next one. */
static inline void end_spin(struct spin *spin, unsigned *learned) {
    unsigned less = spin->spun / SHRINKS_BY, least = spin->slept ? SPIN_WOKEN : SPIN_FAR;
    if (spin->most > SPIN_FAR) *learned = less > least ? less : least;
    spin->spun = 0;
    spin->slept = 1;
}

/* Whether a waiter with this number of threads before it is to spin on. If it is time to sleep: 0; the next call begins
 * a new spin. The number may be another with each call. It reads no clock: a thread that loses its processor spins on
 * afterwards. */
static inline int qolb_spins_on_(struct spin *spin, uint64_t before) {
    unsigned *learned = &qolb_learned_[spin->slept ? WOKEN_SPIN : FIRST_SPIN];
    unsigned patience = spin->spun ? *learned : begin_spin(learned), may_spin = pauses_in_1024();
    if (spin->spun == 0) spin->first = before;
    spin->before = before;
    if (before >= processors()) spin->crowded = 1;
    spin->most = longest_spin(spin);
    if (patience < SPIN_NEAR && patience < spin->most) spin->most = patience;
    if (spin->spun + POLL_PAUSE <= spin->most && may_spin) return 1;
    return end_spin(spin, learned), 0;
}

/* How long a lock's waiter is to pause before it polls: by all threads before it, and by how fast they were so far. */
static inline unsigned qolb_poll_pause_(const struct spin *spin) {
    uint64_t ended = spin->first - spin->before, each = POLL_FARTHER;
    if (ended) each = spin->spun * (uint64_t)POLL_PART / 100 / ended;
    if (each > POLL_FARTHEST) each = POLL_FARTHEST;
    return (unsigned)(POLL_PAUSE + (spin->before - 1) * each);
}

/* Pauses before a poll, or yields. A waiter that was woken yields before its first pause: it may have taken the
 * processor from the holder. */
static inline void qolb_spin_for_(struct spin *spin, unsigned pause) {
    unsigned left = spin->most - spin->spun;
    int in_place = is_to_yield(spin), was_woken = spin->slept && spin->spun == 0;
    int yielded = (in_place || was_woken) && qolb_yield_();
    if (in_place && yielded) {
        spin->spun += YIELD_SPUN < left ? YIELD_SPUN : left;
    } else {
        qolb_pause_(pause < left ? pause : left);
        spin->spun += pause < left ? pause : left;
    }
}

/* Both, of a node: pauses, and returns 1; or 0, at once. */
static inline int qolb_spin_once_(struct spin *spin, uint64_t before) {
    return qolb_spins_on_(spin, before) ? qolb_spin_for_(spin, NODE_PAUSE), 1 : 0;
}

/* ---- Waiting for the word of a barging lock ---- */

/* A thread that spins before it queues. {0} when it begins. */
struct barge {
    unsigned spun, pause; /* nanoseconds: so far, and the last time */
};

/* Pauses before a look, and returns 1; or 0, at once, when it is time to queue. */
static inline int qolb_barge_once_(struct barge *barge) {
    unsigned twice = barge->pause * 2;
    barge->pause = twice == 0 ? BARGE_PAUSE : twice < BARGE_LONGEST ? twice : BARGE_LONGEST;
    if (barge->spun >= BARGE_SPIN || !qolb_pause_(barge->pause)) return 0;
    if (barge->spun >= BARGE_YIELD_FROM) qolb_yield_();
    barge->spun += barge->pause;
    return 1;
}

/* The same for the queue head, which pauses for `pause` nanoseconds between two looks. It has spun for `*spun` since
 * its wait began, or since it slept. A spin in which critical sections ended pays, because a head that sleeps has to be
 * woken by the thread that leaves; one in which none did makes the next one shorter, down to 2 us. */
static inline int qolb_watch_once_(unsigned *spun, unsigned pause, int pays) {
    unsigned *learned = &qolb_learned_[HEAD_SPIN], least = SPIN_FAR;
    unsigned patience = *spun ? *learned : begin_spin(learned), less = patience / SHRINKS_BY;
    if (*spun < patience && qolb_pause_(pause)) return *spun += pause, 1;
    *learned = pays ? SPIN_NEAR : less > least ? less : least;
    return *spun = 0, 0;
}

#endif
