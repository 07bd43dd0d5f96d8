/* Enters a lock: this file contains everything from the call until the thread holds the lock (lock.h). This file is
 * tested and model-checked, but not proved.
 *
 * To enter a strict lock, a thread draws a ticket, which fixes its place in the order. The thread waits until its turn
 * has come, and then checks that the lock is open. To enter a barging lock, a thread takes the lock word if the word is
 * free and not reserved for the queue head, or becomes so while the thread spins. Otherwise the thread draws a ticket,
 * waits until its turn has come, takes the lock word as the queue head, and releases its turn in the queue.
 *
 * A waiting thread polls and spins as spin.h decides. Then the thread announces its sleep with a proved call, which
 * returns the value that the word now has. The thread sleeps while the word has this value, retracts its announcement
 * when it wakes, and polls again. The atomic step that grants a ticket also returns the number of announced sleepers to
 * the granting thread. The granting thread wakes the sleepers by the address of the word on which they sleep, unless no
 * thread waits for the ticket. No other handshake is needed.
 *
 * A call that times out withdraws its request, or abandons its ticket if the turn is too far away for a withdrawal. A
 * call that may not wait draws a ticket only if it could withdraw the request. While too many requests are open, a call
 * with a timeout draws no ticket; it looks at the lock every millisecond instead. */
#include "entries.h"
#include <stdlib.h>

#define likely(it) __builtin_expect(!!(it), 1)
#define SLOW __attribute__((noinline))
/* The same instructions take a tenth longer at some places than at others. */
#define FAST __attribute__((aligned(64)))

/* A call that enters. */
struct request {
    struct lock *lock;
    struct turn *at;
    uint64_t until;      /* a time of CLOCK_MONOTONIC, or FOR_EVER */
    int is_counted;      /* among the lock's threads without a ticket */
    int waits;           /* it has passed the probe of a wait */
    struct entry *spare; /* for a ticket that it abandons, or NULL */
};

static inline const struct qolb_core *core_of(const struct request *my) { return &my->lock->core; }
static inline struct qolb_ticket *ticket_of(const struct request *my) { return &my->at->ticket; }

/* In the order of a call: each of these goes on with the one below. */
static uint32_t enter_or_try(struct lock *lock, uint64_t until, uint32_t held);
static uint32_t barge(struct turn *at);
static uint32_t go_on(struct turn *at, uint32_t got);
static uint32_t ask(struct request *my);
static uint32_t finish(struct request *my, uint32_t got);
static uint32_t wait_for_room(struct request *my);
static uint32_t wait_for_turn(struct request *my);
static uint32_t wait_for_lock_word(struct request *my);

/* ---- The calls ----
 *
 * A thread that had this lock before has a place for it, and takes the short way, which checks no more than the proved
 * calls do: they refuse a ticket of another lock that lay in the same bytes, and then nothing has changed. What the
 * short way needs after a call is in the place; so it saves one register. */

FAST enum qolb_result qolb_lock_enter(qolb_lock *of) {
    struct turn *at = home_of(lock_of(of));
    if (!likely(is_at(at, lock_of(of), LAST))) return enter_or_try(lock_of(of), FOR_EVER, QOLB_MISUSE);
    if (!likely(!is_barging(lock_of(of)))) return barge(at);
    uint32_t got = qolb_core_draw_and_check_proved_(&lock_of(of)->core, &at->ticket);
    if (!likely(got == QOLB_GRANTED)) return go_on(at, got);
    at->core += HELD - LAST;
    return got;
}

static uint32_t barge(struct turn *at) {
    uint32_t got = qolb_core_barge_proved_(&lock_by(at)->core, &at->ticket);
    if (!likely(got == QOLB_GRANTED)) return go_on(at, got);
    at->core += HELD - LAST;
    return got;
}

/* In the thread's own place for the lock, after a proved call that answered this. */
SLOW static uint32_t go_on(struct turn *at, uint32_t got) {
    struct request my = {lock_by(at), at, FOR_EVER, 0, 0, NULL};
    got = finish(&my, got == QOLB_BUSY ? ask(&my) : got);
    if (got == QOLB_GRANTED) hold_by(at, my.lock);
    return got;
}

enum qolb_result qolb_lock_enter_within(qolb_lock *lock, uint64_t nanoseconds) {
    return enter_or_try(lock_of(lock), end_of(nanoseconds), QOLB_MISUSE);
}

enum qolb_result qolb_lock_enter_until(qolb_lock *lock, uint64_t time) {
    return enter_or_try(lock_of(lock), time, QOLB_MISUSE);
}

enum qolb_result qolb_lock_try(qolb_lock *lock) { return enter_or_try(lock_of(lock), 0, QOLB_BUSY); }

/* The answer of a thread that holds the lock is `held`, by which the two calls differ. */
SLOW static uint32_t enter_or_try(struct lock *lock, uint64_t until, uint32_t held) {
    struct turn beyond;
    qolb_open_(lock);
    if (qolb_holds_(lock)) return held;
    struct turn *at = qolb_place_for_(lock, &beyond);
    uint32_t got = held == QOLB_BUSY ? qolb_try_at_(lock, at) : qolb_enter_at_(lock, at, until, 0);
    if (got == QOLB_GRANTED) qolb_keep_turn_(lock, at, &beyond);
    return got;
}

SLOW uint32_t qolb_enter_at_(struct lock *lock, struct turn *at, uint64_t until, int is_counted) {
    struct request my = {lock, at, until, is_counted, 0, NULL};
    return finish(&my, ask(&my));
}

/* ---- Asking ---- */

static void count_in(struct request *my) {
    if (!my->is_counted) atomic_fetch_add(&my->lock->without_ticket, 1);
    my->is_counted = 1;
}

/* The last access to the lock's memory by a thread that has no ticket, and does not hold it. */
static void count_out(struct request *my) {
    if (my->is_counted) atomic_fetch_sub(&my->lock->without_ticket, 1);
    my->is_counted = 0;
}

/* Takes the lock word as a barging thread, if it is free for anyone. */
static int goes_in(struct lock *lock, struct turn *at) {
    for (int k = 0; k < TRIES; k++) {
        if (qolb_core_barge_proved_(&lock->core, &at->ticket) == QOLB_GRANTED) return 1;
        if (at->ticket.lock_word & (WORD_STATE | LAYOUT_SHUT)) return 0;
    }
    return 0;
}

/* Goes in, or spins before it queues: as a thread without a ticket, since the lock is not to be destroyed meanwhile.
 * Returns 1 once it is in; 0 if it is time to queue, if its own time is over, or if the lock is shut. A word that is
 * reserved at two looks may be so for nobody: a queue head may have given up. Then it queues, and takes it. */
static int barges(struct request *my) {
    struct barge barge = {0};
    if (goes_in(my->lock, my->at)) return 1;
    for (uint64_t was = my->at->ticket.lock_word, word; !is_over(my->until); was = word) {
        count_in(my);
        if (!qolb_barge_once_(&barge)) return 0;
        word = lock_word_of(my->lock);
        if (word & LAYOUT_SHUT || word & was & LAYOUT_RESERVED) return 0;
        if (!(word & WORD_STATE) && goes_in(my->lock, my->at)) return 1;
    }
    return 0;
}

/* Draws a ticket: GRANTED and it is at its turn, WAITING, or, with a timeout, FAR: without a ticket. */
static uint32_t draw(struct request *my) {
    uint32_t got = QOLB_BUSY;
    if (my->until == FOR_EVER) return qolb_core_draw_proved_(core_of(my), ticket_of(my));
    if (!is_over(my->until))
        return has_room(my->lock) ? qolb_core_draw_proved_(core_of(my), ticket_of(my)) : (uint32_t)QOLB_FAR_;
    for (int k = 0; k < DRAWS && got == QOLB_BUSY; k++) got = qolb_core_draw_near_proved_(core_of(my), ticket_of(my));
    return got == QOLB_BUSY ? (uint32_t)QOLB_FAR_ : got;
}

/* The same, or it goes in: GRANTED. */
static uint32_t ask(struct request *my) {
    return is_barging(my->lock) && barges(my) ? (uint32_t)QOLB_GRANTED : draw(my);
}

/* A call that may not wait: GRANTED, BUSY, CLOSED. */
uint32_t qolb_try_at_(struct lock *lock, struct turn *at) {
    uint32_t got = QOLB_BUSY;
    if (is_barging(lock) && goes_in(lock, at)) return QOLB_GRANTED;
    if (qolb_core_try_draw_proved_(&lock->core, &at->ticket) == QOLB_GRANTED)
        got = is_barging(lock) ? qolb_core_take_lock_word_proved_(&lock->core, &at->ticket)
                               : qolb_core_check_open_proved_(&lock->core, &at->ticket);
    if (got == QOLB_BUSY || got == QOLB_WAITING) got = closed_or(QOLB_BUSY, lock);
    qolb_settle_(lock, at);
    return got;
}

/* ---- From the request to the lock ---- */

/* For the probes: the lock's address, and the ticket's number from 1 on; 0 while it has none. */
static struct probed of_request(const struct request *my) {
    uint64_t number = ticket_of(my)->state ? ticket_of(my)->number + 1 : 0;
    return (struct probed){(uintptr_t)my->lock, number, (uintptr_t)my->lock};
}

static void begins_to_wait(struct request *my) {
    if (!my->waits) PROBE(wait, of_request(my));
    my->waits = 1;
}

/* Goes on with a request that ask answered so, until it holds the lock or has no ticket: GRANTED, TIMEDOUT, CLOSED; or
 * MISUSE, if another call has the ticket. In a strict lock all behind a ticket at its turn wait meanwhile: so it looks
 * whether the lock is open, and nothing more. */
static uint32_t finish(struct request *my, uint32_t got) {
    if (got == QOLB_MISUSE) return got;
    if (got == QOLB_FAR_) got = wait_for_room(my);
    count_out(my);
    if (got == QOLB_WAITING) got = wait_for_turn(my);
    if (ticket_of(my)->state == QOLB_TICKET_AT_TURN_)
        got = is_barging(my->lock) ? wait_for_lock_word(my) : qolb_core_check_open_proved_(core_of(my), ticket_of(my));
    if (my->waits) PROBE_END(got, of_request(my));
    qolb_settle_(my->lock, my->at);
    INVARIANT((got == QOLB_GRANTED) == (is_strict_turn(my->at) || is_inside(my->at)));
    return got;
}

/* Waits without a ticket, while too many requests are open. TIMEDOUT and CLOSED: it still has none. */
static uint32_t wait_for_room(struct request *my) {
    uint32_t got = QOLB_FAR_;
    begins_to_wait(my);
    while (got == QOLB_FAR_ && !is_over(my->until)) {
        count_in(my);
        nap(my->until);
        got = is_barging(my->lock) && goes_in(my->lock, my->at) ? (uint32_t)QOLB_GRANTED : draw(my);
    }
    return got == QOLB_FAR_ ? closed_or(QOLB_TIMEDOUT, my->lock) : got;
}

/* ---- Waiting for a turn of the queue ---- */

/* Sleeps at these 32 bits, with its sleep announced. */
static void sleep_at(const struct request *my, uint32_t *half, uint32_t value, uint32_t classes, uint64_t until) {
    my->at->core |= SLEPT;
    PROBE(sleep, of_request(my));
    qolb_park_(half, value, classes, until);
    PROBE(wake, of_request(my));
}

/* Where 65,535 sleep at its cell it sleeps by time. */
static uint32_t sleep_for_turn(const struct request *my, uint64_t until) {
    struct qolb_ticket *ticket = ticket_of(my);
    uint32_t got = qolb_core_announce_sleep_proved_(core_of(my), ticket);
    if (got == QOLB_FULL_) {
        nap(until);
        return qolb_core_poll_proved_(core_of(my), ticket);
    }
    if (got != QOLB_ASLEEP_) return got;
    sleep_at(my, cell_half(words_of(my->lock), ticket->number), (uint32_t)(ticket->word >> 32),
             class_of(ticket->number), until);
    return qolb_core_retract_sleep_proved_(core_of(my), ticket);
}

/* How many threads are before a waiter: by the rounds that its last poll found, and by the cells beside its own. */
static uint64_t turns_before(const struct request *my) {
    uint64_t number = ticket_of(my)->number, rounds = ticket_of(my)->rounds, k = 0;
    while (k + 1 < TICKETS_IN_ROUND && rounds_to_go(my->lock, number - k - 1) >= (int32_t)rounds) k++;
    return (rounds - 1) * TICKETS_IN_ROUND + k + 1;
}

/* Before it sleeps with a timeout, too far from its turn to withdraw: so it is late by no malloc. */
static void make_spare(struct request *my) {
    if (my->until != FOR_EVER && !my->spare && ticket_of(my)->rounds > MOST_ROUNDS_NEAR)
        my->spare = qolb_new_entry_(my->lock, NULL);
}

/* It looks at the lock while it may: once it has withdrawn, that may be gone. Where its ticket can't be abandoned it
 * waits for a moment more. */
static uint32_t give_up(struct request *my) {
    uint32_t told = closed_or(QOLB_TIMEDOUT, my->lock), got = qolb_core_withdraw_proved_(core_of(my), ticket_of(my));
    if (got == QOLB_FAR_) got = qolb_abandon_(my->lock, ticket_of(my), &my->spare);
    if (got == QOLB_WAITING) return sleep_for_turn(my, end_of(NAP));
    return got == QOLB_GRANTED ? got : told;
}

/* GRANTED: it is at its turn of the queue. TIMEDOUT, or CLOSED of a lock that is shut: it has no ticket. */
static uint32_t wait_for_turn(struct request *my) {
    struct spin spin = {.yields_from = is_barging(my->lock) ? NO_YIELDS : 0};
    uint32_t got = QOLB_WAITING;
    begins_to_wait(my);
    while (got == QOLB_WAITING) {
        INVARIANT(ticket_of(my)->state == QOLB_TICKET_WAITING_ && !my->is_counted);
        if (is_over(my->until)) {
            got = give_up(my);
        } else if (qolb_spins_on_(&spin, turns_before(my))) {
            qolb_spin_for_(&spin, qolb_poll_pause_(&spin));
            got = qolb_core_poll_proved_(core_of(my), ticket_of(my));
        } else {
            make_spare(my);
            got = sleep_for_turn(my, my->until);
        }
    }
    if (my->spare) free(my->spare);
    INVARIANT(ticket_of(my)->state == (got == QOLB_GRANTED ? QOLB_TICKET_AT_TURN_ : QOLB_TICKET_FREE_));
    return got;
}

/* ---- Waiting for the lock word, as the queue head ----
 *
 * It announces its sleep there, and the leaving thread is told. It takes the word when that is reserved for it, or when
 * that is free, and no barging thread came since its last look: so barging threads may go first. It requests the
 * handoff once it was overtaken, and has found the word held for 2 us; or a millisecond after it first slept. */

/* How the queue head has watched the lock word. */
struct watch {
    uint64_t first, had; /* the barging threads since the last head when it began, and at its last look */
    uint64_t begun;      /* the same when its spin began */
    uint64_t since;      /* when it first slept, or 0 */
    unsigned spun;       /* nanoseconds since it began, or slept */
    unsigned held;       /* nanoseconds for which it has seen the word held */
};

static int is_long(const struct watch *watch, uint64_t word) {
    if (watch->since) return qolb_now_() - watch->since >= SLEEPER_PATIENCE;
    return watch->held >= WATCH_PATIENCE && word / LAYOUT_NEWCOMER != watch->first;
}

/* At each look: whether the head may take the word. A shut one it may, to be told. */
static int may_take(struct watch *watch, uint64_t word) {
    uint64_t had = watch->had;
    watch->had = word / LAYOUT_NEWCOMER;
    if ((word & WORD_STATE) == LAYOUT_HELD) return 0;
    return word & (LAYOUT_RESERVED | LAYOUT_SHUT) || had == watch->had;
}

static void sleep_as_head(struct request *my, struct watch *watch) {
    if (!watch->since) watch->since = qolb_now_();
    if (qolb_core_announce_head_sleep_proved_(core_of(my), ticket_of(my)) != QOLB_ASLEEP_) return;
    sleep_at(my, lock_word_half(words_of(my->lock)), (uint32_t)ticket_of(my)->lock_word, UINT32_MAX, my->until);
}

static void watch_held(struct request *my, struct watch *watch, uint64_t word) {
    int requested = word & LAYOUT_HANDOFF;
    if (!requested && is_long(watch, word))
        requested = qolb_core_request_handoff_proved_(core_of(my), ticket_of(my)) == QOLB_DONE;
    if (watch->spun == 0) watch->begun = word / LAYOUT_NEWCOMER;
    int moved = word / LAYOUT_NEWCOMER != watch->begun;
    watch->held += WATCH_PAUSE;
    if (!qolb_watch_once_(&watch->spun, requested ? POLL_PAUSE : WATCH_PAUSE, moved)) sleep_as_head(my, watch);
}

/* GRANTED or CLOSED: it is in by the lock word. TIMEDOUT, or CLOSED too if it times out at a shut lock: it is not. In
 * each case it still has its turn of the queue. */
static uint32_t wait_for_lock_word(struct request *my) {
    uint64_t word = lock_word_of(my->lock);
    struct watch watch = {.first = word / LAYOUT_NEWCOMER, .had = UINT64_MAX};
    for (;; word = lock_word_of(my->lock)) {
        INVARIANT(ticket_of(my)->state == QOLB_TICKET_AT_TURN_);
        if (may_take(&watch, word)) {
            uint32_t got = qolb_core_take_lock_word_proved_(core_of(my), ticket_of(my));
            if (got != QOLB_WAITING) return got;
        } else if (is_over(my->until)) {
            return closed_or(QOLB_TIMEDOUT, my->lock);
        } else if ((word & WORD_STATE) == LAYOUT_HELD) {
            begins_to_wait(my);
            watch_held(my, &watch, word);
        } else {
            begins_to_wait(my);
            qolb_pause_(WATCH_PAUSE);
        }
    }
}
