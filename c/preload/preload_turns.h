/* Enters and leaves the lock that replaces a mutex, for preload.c. As with a pthread mutex, any thread may unlock the
 * mutex, and a thread that locks a mutex which it already holds waits until another thread unlocks it. Therefore the
 * holder's ticket is stored next to the lock, and not in the thread's table (../src/lock/turns.c). */
#ifndef QOLB_PRELOAD_TURNS_H
#define QOLB_PRELOAD_TURNS_H

#include "preload.h"

/* Keeps the turn of a thread that has entered. */
static inline uint32_t owned(struct line *line, const struct turn *at, uint32_t got) {
    if (got != QOLB_GRANTED && got != QOLB_TIMEDOUT) return got;
    line->at = *at;
    atomic_store_explicit(&line->owner, own_number(), memory_order_release);
    return got;
}

static inline struct turn new_turn(struct line *line) {
    struct turn at = {0};
    at.ticket.lock_word = atomic_load_explicit(&line->guess, memory_order_relaxed);
    return at;
}

static inline uint32_t enter_line(struct line *line, uint64_t nanoseconds) {
    struct turn at = new_turn(line);
    uint32_t got = qolb_enter_at_(lock_of(&line->lock), &at, end_of(nanoseconds), 0);
    return got == QOLB_GRANTED ? owned(line, &at, got) : got;
}

static inline uint32_t try_line(struct line *line) {
    struct turn at = new_turn(line);
    return owned(line, &at, qolb_try_at_(lock_of(&line->lock), &at));
}

/* Takes the holder's turn, for the thread that sets `owner` to 0. Returns 0 if no thread holds the line. */
static inline int take_turn_of(struct line *line, struct turn *at) {
    uint64_t owner = atomic_load_explicit(&line->owner, memory_order_acquire);
    if (!owner || !atomic_compare_exchange_strong(&line->owner, &owner, 0)) return 0;
    *at = line->at;
    atomic_store_explicit(&line->guess, at->ticket.lock_word / LAYOUT_SHUT * LAYOUT_SHUT, memory_order_relaxed);
    return 1;
}

static inline void leave_line(struct line *line) {
    struct turn at;
    if (take_turn_of(line, &at)) qolb_leave_at_(lock_of(&line->lock), &at);
}

static inline int is_held_line(const struct line *line) { return atomic_load(&line->owner) != 0; }

/* Waits at a condition. As in the C library, another thread may hold the mutex. If no thread does, this thread enters
 * first. */
static inline uint32_t wait_with_line(qolb_cond *cond, struct line *line, uint64_t nanoseconds) {
    struct turn at;
    while (!take_turn_of(line, &at)) (void)!enter_line(line, FOR_EVER);
    return owned(line, &at, qolb_cond_wait_at_(cond, lock_of(&line->lock), &at, nanoseconds));
}

#endif
