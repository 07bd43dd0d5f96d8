/* A stand-in in C for the proved core of a lock. It returns the results of the calls in c/src/core.h, which
 * crates/qolb_locks exports, and takes the same atomic steps on the same words. This file is not part of the library.
 * ../explore_lock.py uses it to model-check the C code of the lock, and c/tests/core_calls.c compares it with the
 * proved core.
 *
 * The core has 8-byte words: word 0 is the lock word, word 16 is the tail, words 17 to 20 are the cells, and no other
 * word is ever written. A cell contains sixteen bits for withdrawn tickets, from bit 16 on the number of sleepers, and
 * from bit 34 on the number of granted rounds modulo 2^30. The end of core.h describes the lock word. */
#include "core.h"
#include <stdatomic.h>
#include <stdbool.h>
#include <stddef.h>

/* ../explore_lock.py: told of each drawn ticket, of each withdrawn one, and of who takes the lock word or sleeps
 * there, by the same step; and what is otherwise the width of a cell's fields, by scenes. */
#ifdef EXPLORED
#define MOST_NEAR model_near
#define MOST_SLEEPERS model_sleepers
enum { MOST_PASSED = 1, IN_ROUND = TICKETS_IN_ROUND };
#else
#define GHOST(event) ((void)0)
enum { MOST_NEAR = LAYOUT_WITHDRAWAL_WINDOW, MOST_SLEEPERS = LAYOUT_MAX_SLEEPERS, MOST_PASSED = LAYOUT_MAX_PASSED };
enum { IN_ROUND = LAYOUT_CELLS };
#endif

void *qolb_malloc_(size_t size);
void qolb_free_(void *block);

enum { OUTER = LAYOUT_LOCK_WORD, TAIL = LAYOUT_TAIL_WORD, CELLS = LAYOUT_FIRST_CELL };
enum { WORDS = LAYOUT_CORE_WORDS, HANDOFF = LAYOUT_HANDOFF, HEAD_SLEEPS = LAYOUT_HEAD_ASLEEP, HELD = LAYOUT_HELD };
enum { RESERVED = LAYOUT_RESERVED, STATE = HELD | RESERVED, SHUT = LAYOUT_SHUT, NEWCOMER = LAYOUT_NEWCOMER };
#define ROUND ((uint64_t)1 << LAYOUT_ROUNDS_BIT)
#define SLEEPER ((uint64_t)1 << LAYOUT_SLEEPERS_BIT)
#define MOST_BARGING ((uint64_t)LAYOUT_MAX_BARGING_LIMIT)

struct lock {
    _Atomic uint64_t *words;
    void *slots;                                               /* none: as of the proved table */
    char more[LAYOUT_CORE_BLOCK_BYTES - 4 * sizeof(uint64_t)]; /* of that, too: the block has the same size */
    uint64_t barging, label;
};

/* Each call reads this of the lock, whatever it answers: so none may be made when that may no longer exist. */
static const struct lock *of(const struct qolb_core *core) { return *(const void *const volatile *)&core->at; }
static _Atomic uint64_t *lock_word_at(const struct lock *lock) { return &lock->words[OUTER]; }
static _Atomic uint64_t *cell_of(const struct lock *lock, uint64_t number) {
    return &lock->words[CELLS + number % IN_ROUND];
}
static uint64_t bit_of(uint64_t number) { return (uint64_t)1 << (number / IN_ROUND % LAYOUT_SLEEPERS_BIT); }
static uint64_t to_go(uint64_t cell, uint64_t number) {
    return (number / IN_ROUND + 1 - cell / ROUND) % ((uint64_t)1 << (64 - LAYOUT_ROUNDS_BIT));
}
static uint64_t sleepers_in(uint64_t cell) { return cell / SLEEPER % (LAYOUT_MAX_SLEEPERS + 1); }

/* Whether the ticket is of this lock and in one of these states, which are bits. */
static bool is(const struct lock *lock, const struct qolb_ticket *ticket, unsigned states) {
    return (states >> ticket->state & 1) && (ticket->state == QOLB_TICKET_FREE_ || ticket->label == lock->label);
}
static uint32_t in_state(struct qolb_ticket *ticket, uint32_t state, uint32_t answer) {
    ticket->state = state;
    return answer;
}
#define BIT(name) (1u << QOLB_TICKET_##name##_)

/* ---- Opening ---- */

uint32_t qolb_core_open_proved_(uint64_t barging, uint64_t label, struct qolb_core *out) {
    if (barging > MOST_BARGING) return QOLB_BAD_NODES;
    if (label == 0) return QOLB_MISUSE;
    _Atomic uint64_t *words = qolb_malloc_(WORDS * sizeof *words);
    void *slots = words ? qolb_malloc_(sizeof(uint64_t)) : NULL;
    struct lock *lock = slots ? qolb_malloc_(sizeof *lock) : NULL;
    if (!lock) return qolb_free_(words), qolb_free_(slots), QOLB_NO_MEMORY;
    for (int k = 0; k < WORDS; k++) atomic_init(&words[k], k == CELLS ? ROUND : 0);
    *lock = (struct lock){.words = words, .slots = slots, .barging = barging, .label = label};
    out->at = lock;
    return QOLB_DONE;
}

/* ---- The queue ---- */

/* What the ticket is told by its cell's word. */
static uint32_t looks(struct qolb_ticket *ticket, uint64_t cell) {
    ticket->rounds = to_go(cell, ticket->number);
    return ticket->rounds ? in_state(ticket, QOLB_TICKET_WAITING_, QOLB_WAITING)
                          : in_state(ticket, QOLB_TICKET_AT_TURN_, QOLB_GRANTED);
}

static void draws(const struct lock *lock, struct qolb_ticket *ticket, uint64_t number) {
    GHOST(hook_draws());
    ticket->number = number;
    ticket->label = lock->label;
}

uint32_t qolb_core_draw_proved_(const struct qolb_core *core, struct qolb_ticket *ticket) {
    const struct lock *lock = of(core);
    if (!is(lock, ticket, BIT(FREE))) return QOLB_MISUSE;
    draws(lock, ticket, atomic_fetch_add(&lock->words[TAIL], 1));
    return looks(ticket, atomic_load(cell_of(lock, ticket->number)));
}

uint32_t qolb_core_draw_near_proved_(const struct qolb_core *core, struct qolb_ticket *ticket) {
    const struct lock *lock = of(core);
    if (!is(lock, ticket, BIT(FREE))) return QOLB_MISUSE;
    uint64_t number = atomic_load(&lock->words[TAIL]), cell = atomic_load(cell_of(lock, number));
    ticket->rounds = to_go(cell, number);
    if (ticket->rounds > MOST_NEAR) return QOLB_FAR_;
    uint64_t tail = number;
    if (!atomic_compare_exchange_strong(&lock->words[TAIL], &tail, number + 1)) return QOLB_BUSY;
    draws(lock, ticket, number);
    return looks(ticket, cell);
}

uint32_t qolb_core_try_draw_proved_(const struct qolb_core *core, struct qolb_ticket *ticket) {
    const struct lock *lock = of(core);
    if (!is(lock, ticket, BIT(FREE))) return QOLB_MISUSE;
    uint64_t number = atomic_load(&lock->words[TAIL]), cell = atomic_load(cell_of(lock, number)), tail = number;
    if (to_go(cell, number) || !atomic_compare_exchange_strong(&lock->words[TAIL], &tail, number + 1)) return QOLB_BUSY;
    draws(lock, ticket, number);
    return looks(ticket, cell);
}

uint32_t qolb_core_poll_proved_(const struct qolb_core *core, struct qolb_ticket *ticket) {
    const struct lock *lock = of(core);
    if (!is(lock, ticket, BIT(WAITING))) return QOLB_MISUSE;
    return looks(ticket, atomic_load(cell_of(lock, ticket->number)));
}

uint32_t qolb_core_announce_sleep_proved_(const struct qolb_core *core, struct qolb_ticket *ticket) {
    const struct lock *lock = of(core);
    if (!is(lock, ticket, BIT(WAITING))) return QOLB_MISUSE;
    _Atomic uint64_t *cell = cell_of(lock, ticket->number);
    uint64_t found = atomic_load(cell), word = found;
    if (looks(ticket, found) == QOLB_GRANTED) return QOLB_GRANTED;
    if (sleepers_in(found) >= MOST_SLEEPERS) return QOLB_FULL_;
    if (!atomic_compare_exchange_strong(cell, &word, found + SLEEPER)) return looks(ticket, word);
    ticket->word = found + SLEEPER;
    return in_state(ticket, QOLB_TICKET_ASLEEP_, QOLB_ASLEEP_);
}

uint32_t qolb_core_retract_sleep_proved_(const struct qolb_core *core, struct qolb_ticket *ticket) {
    const struct lock *lock = of(core);
    if (!is(lock, ticket, BIT(ASLEEP))) return QOLB_MISUSE;
    return looks(ticket, atomic_fetch_sub(cell_of(lock, ticket->number), SLEEPER));
}

uint32_t qolb_core_withdraw_proved_(const struct qolb_core *core, struct qolb_ticket *ticket) {
    const struct lock *lock = of(core);
    if (!is(lock, ticket, BIT(WAITING))) return QOLB_MISUSE;
    if (ticket->rounds > MOST_NEAR) return QOLB_FAR_;
    _Atomic uint64_t *cell = cell_of(lock, ticket->number);
    if (to_go(atomic_fetch_add(cell, bit_of(ticket->number)), ticket->number)) {
        GHOST(hook_withdraws());
        return in_state(ticket, QOLB_TICKET_FREE_, QOLB_WITHDRAWN);
    }
    atomic_fetch_sub(cell, bit_of(ticket->number));
    return in_state(ticket, QOLB_TICKET_AT_TURN_, QOLB_GRANTED);
}

/* The state of a ticket whose turn of the queue was passed on. */
static uint32_t passed(uint32_t state) {
    return state == QOLB_TICKET_HEAD_INSIDE_        ? QOLB_TICKET_INSIDE_
           : state == QOLB_TICKET_HEAD_INSIDE_SHUT_ ? QOLB_TICKET_INSIDE_SHUT_
                                                    : QOLB_TICKET_FREE_;
}

uint32_t qolb_core_release_proved_(const struct qolb_core *core, struct qolb_ticket *ticket) {
    const struct lock *lock = of(core);
    if (!is(lock, ticket,
            BIT(AT_TURN) | BIT(SERVED) | BIT(SERVED_SHUT) | BIT(ENDING) | BIT(HEAD_INSIDE) | BIT(HEAD_INSIDE_SHUT)))
        return QOLB_MISUSE;
    if (is(lock, ticket, BIT(AT_TURN))) GHOST(hook_withdraws()); /* it is passed on without being served */
    for (int k = 0; k < MOST_PASSED; k++) {
        uint64_t next = ticket->number + 1, found = atomic_fetch_add(cell_of(lock, next), ROUND);
        if (!(found & bit_of(next))) {
            ticket->sleepers = sleepers_in(found);
            return in_state(ticket, passed(ticket->state), QOLB_DONE);
        }
        ticket->number = next;
        atomic_fetch_sub(cell_of(lock, next), bit_of(next));
    }
    int is_in = is(lock, ticket, BIT(HEAD_INSIDE) | BIT(HEAD_INSIDE_SHUT));
    return in_state(ticket, is_in ? ticket->state : QOLB_TICKET_ENDING_, QOLB_UNFINISHED_);
}

/* ---- The lock word ---- */

uint32_t qolb_core_check_open_proved_(const struct qolb_core *core, struct qolb_ticket *ticket) {
    const struct lock *lock = of(core);
    if (lock->barging > 1 || !is(lock, ticket, BIT(AT_TURN) | BIT(SERVED) | BIT(SERVED_SHUT))) return QOLB_MISUSE;
    return atomic_load(lock_word_at(lock)) & SHUT ? in_state(ticket, QOLB_TICKET_SERVED_SHUT_, QOLB_CLOSED)
                                                  : in_state(ticket, QOLB_TICKET_SERVED_, QOLB_GRANTED);
}

uint32_t qolb_core_draw_and_check_proved_(const struct qolb_core *core, struct qolb_ticket *ticket) {
    if (of(core)->barging > 1) return QOLB_MISUSE;
    uint32_t got = qolb_core_draw_proved_(core, ticket);
    return got == QOLB_GRANTED ? qolb_core_check_open_proved_(core, ticket) : got;
}

/* Where the lock word is not as the ticket guessed: what the step found. */
static uint32_t found(struct qolb_ticket *ticket, uint64_t lock_word, uint32_t answer) {
    ticket->lock_word = lock_word;
    return answer;
}

uint32_t qolb_core_barge_proved_(const struct qolb_core *core, struct qolb_ticket *ticket) {
    const struct lock *lock = of(core);
    if (lock->barging <= 1 || !is(lock, ticket, BIT(FREE))) return QOLB_MISUSE;
    uint64_t guess = ticket->lock_word, in = guess + NEWCOMER + HELD;
    if (guess & (STATE | SHUT)) return found(ticket, atomic_load(lock_word_at(lock)), QOLB_BUSY);
    if (!atomic_compare_exchange_strong(lock_word_at(lock), &guess, in)) return found(ticket, guess, QOLB_BUSY);
    GHOST(hook_goes_in(lock->label));
    ticket->lock_word = in;
    ticket->label = lock->label;
    return in_state(ticket, QOLB_TICKET_INSIDE_, QOLB_GRANTED);
}

uint32_t qolb_core_take_lock_word_proved_(const struct qolb_core *core, struct qolb_ticket *ticket) {
    const struct lock *lock = of(core);
    if (lock->barging <= 1 || !is(lock, ticket, BIT(AT_TURN))) return QOLB_MISUSE;
    uint64_t was = atomic_load(lock_word_at(lock)), in = (was & SHUT) + HELD;
    if ((was & STATE) == HELD || !atomic_compare_exchange_strong(lock_word_at(lock), &was, in))
        return found(ticket, was, QOLB_WAITING);
    GHOST(hook_takes_outer(lock->label));
    ticket->lock_word = in;
    return in & SHUT ? in_state(ticket, QOLB_TICKET_HEAD_INSIDE_SHUT_, QOLB_CLOSED)
                     : in_state(ticket, QOLB_TICKET_HEAD_INSIDE_, QOLB_GRANTED);
}

uint32_t qolb_core_leave_lock_word_proved_(const struct qolb_core *core, struct qolb_ticket *ticket) {
    const struct lock *lock = of(core);
    if (!is(lock, ticket, BIT(INSIDE) | BIT(INSIDE_SHUT))) return QOLB_MISUSE;
    uint64_t guess = ticket->lock_word, was = guess, to = guess / SHUT * SHUT;
    int reserves = guess & HANDOFF || guess / NEWCOMER + 1 >= lock->barging;
    if (!atomic_compare_exchange_strong(lock_word_at(lock), &was, reserves ? to + RESERVED : to))
        return found(ticket, was, QOLB_BUSY);
    ticket->head_sleeps = (guess & HEAD_SLEEPS) != 0;
    ticket->lock_word = to;
    return in_state(ticket, QOLB_TICKET_FREE_, QOLB_DONE);
}

uint32_t qolb_core_request_handoff_proved_(const struct qolb_core *core, struct qolb_ticket *ticket) {
    const struct lock *lock = of(core);
    if (lock->barging <= 1 || !is(lock, ticket, BIT(AT_TURN))) return QOLB_MISUSE;
    uint64_t was = atomic_load(lock_word_at(lock));
    return was & HANDOFF || atomic_compare_exchange_strong(lock_word_at(lock), &was, was + HANDOFF) ? QOLB_DONE
                                                                                                    : QOLB_BUSY;
}

uint32_t qolb_core_announce_head_sleep_proved_(const struct qolb_core *core, struct qolb_ticket *ticket) {
    const struct lock *lock = of(core);
    if (lock->barging <= 1 || !is(lock, ticket, BIT(AT_TURN))) return QOLB_MISUSE;
    uint64_t was = atomic_load(lock_word_at(lock)), asleep = was | HEAD_SLEEPS;
    if ((was & STATE) != HELD || !atomic_compare_exchange_strong(lock_word_at(lock), &was, asleep)) return QOLB_WAITING;
    GHOST(hook_head_sleeps(ticket));
    ticket->lock_word = asleep;
    return QOLB_ASLEEP_;
}

uint32_t qolb_core_shut_proved_(const struct qolb_core *core, struct qolb_ticket *ticket) {
    const struct lock *lock = of(core);
    if (!is(lock, ticket, BIT(SERVED) | BIT(HEAD_INSIDE) | BIT(INSIDE))) return QOLB_MISUSE;
    atomic_fetch_add(lock_word_at(lock), SHUT);
    ticket->lock_word += SHUT;
    return in_state(ticket, ticket->state + 1, QOLB_DONE);
}

uint32_t qolb_core_reopen_proved_(const struct qolb_core *core, struct qolb_ticket *ticket) {
    const struct lock *lock = of(core);
    if (!is(lock, ticket, BIT(SERVED_SHUT) | BIT(HEAD_INSIDE_SHUT))) return QOLB_MISUSE;
    if (atomic_load(&lock->words[TAIL]) != ticket->number + 1) return QOLB_BUSY;
    atomic_fetch_sub(lock_word_at(lock), SHUT);
    ticket->lock_word -= SHUT;
    return in_state(ticket, ticket->state - 1, QOLB_GRANTED);
}
