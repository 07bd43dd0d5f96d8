/* The clock for timeouts, and the functions with which a thread sleeps on a word of memory until another thread wakes
 * the sleepers of that word (a futex). All files of the library that wait use this header. A thread that waits with a
 * node sleeps on a word of its line (line.h), and a thread that waits for a lock sleeps on one of the lock's own words
 * (lock/). */
#ifndef QOLB_FUTEX_H
#define QOLB_FUTEX_H

#include "common.h"
#include <stdatomic.h>
#include <stdint.h>

#define FOR_EVER UINT64_MAX

/* A timeout: when it began, and its length. */
struct limit {
    uint64_t since, nanoseconds;
};

/* Returns the time in nanoseconds, by a clock that is never set. */
HIDDEN uint64_t qolb_now_(void);

/* Begins a timeout. */
static inline struct limit from_now(uint64_t nanoseconds) {
    return (struct limit){nanoseconds == FOR_EVER ? 0 : qolb_now_(), nanoseconds};
}

/* Returns the time that is left of a timeout, or 0 if it has expired. */
static inline uint64_t left(const struct limit *limit) {
    if (limit->nanoseconds == FOR_EVER) return FOR_EVER;
    uint64_t spent = qolb_now_() - limit->since;
    return spent < limit->nanoseconds ? limit->nanoseconds - spent : 0;
}

/* Returns the point in time at which a timeout that begins now expires, or FOR_EVER if it does not. */
static inline uint64_t end_of(uint64_t nanoseconds) {
    uint64_t now = nanoseconds == FOR_EVER ? 0 : qolb_now_();
    return nanoseconds < FOR_EVER - now ? now + nanoseconds : FOR_EVER;
}

/* Returns whether this point in time has come. */
static inline int is_over(uint64_t until) { return until != FOR_EVER && qolb_now_() >= until; }

/* Sleeps while the word has this value, but for at most `nanoseconds`. It may return for no reason. It is no
 * cancellation point. */
HIDDEN void qolb_sleep_at_(atomic_uint *word, unsigned value, uint64_t nanoseconds);

/* Wakes at most `most` sleepers of the word, which need not exist any more. */
HIDDEN void qolb_wake_at_(atomic_uint *word, int most);

/* Sleeps in the same way until a point in time, as a sleeper of these classes (a set of 32 bits); and wakes all
 * sleepers that share a class with `classes`. */
HIDDEN void qolb_park_(uint32_t *half, uint32_t value, uint32_t classes, uint64_t until);
HIDDEN void qolb_unpark_(uint32_t *half, uint32_t classes);

#endif
