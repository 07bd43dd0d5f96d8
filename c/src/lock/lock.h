/* The C code around the proved core of a lock (qolb_lock(3)): the layout of a lock's bytes, and the functions that the
 * files of this folder offer each other.
 *
 * The decision logic is proved: each atomic step that grants, passes on, withdraws, shuts or counts is taken by a call
 * of core.h, which gets the lock and a ticket. The files of this folder look up the ticket, spin, sleep and wake. Each
 * file calls only files that are below it in this list:
 *
 *   conditions.c   waits on a condition, and notifies its waiters of a shut
 *   tasks.c        tasks, which enter and leave without a waiting thread
 *   enter.c        enters and tries; waits for a turn of the queue and for the lock word
 *   leave.c        leaves, shuts and destroys; passes turns on, and decides which threads to wake
 *   abandoned.c    tickets of calls that timed out far from their turn
 *   entries.h      lists of the tickets for which no thread waits, and the guards of these lists
 *   turns.c        the thread's table of the locks that it holds
 *   opens.c        opens a lock in its own bytes, at its first use
 *   ../core.h      the proved calls; ../spin.h how long to spin; ../futex.h the clock and sleeping; ../guard.h guards;
 *                  ../callbacks.h the callbacks of tasks
 *
 * This code is tested and model-checked (tools/explore_lock.py), but not proved. */
#ifndef QOLB_LOCK_H
#define QOLB_LOCK_H

#include "../callbacks.h"
#include "../core.h"
#include "../futex.h"
#include "../guard.h"
#include "../heap.h"
#include "../probes.h"
#include "../spin.h"

/* ---- What a build may set ---- */

/* The model checker builds the same code with other numbers (tools/explorer/explored.h), with which fewer steps lead to
 * the same decisions. */
#ifndef EXPLORED
enum {
    TICKETS_IN_ROUND = LAYOUT_CELLS,
    MOST_ROUNDS_NEAR = LAYOUT_WITHDRAWAL_WINDOW, /* the most rounds before a request that can be withdrawn */
    /* The most open requests when a call with a timeout draws a ticket. One release passes so many in 2 ms. */
    MOST_OPEN = LAYOUT_MAX_OPEN_WITH_TIMEOUT,
    MOST_OPEN_ROUNDS = MOST_OPEN / TICKETS_IN_ROUND,
    MOST_HELD = 8,            /* the number of locks for which a thread's table has room */
    CLASSES_OF_SLEEPERS = 32, /* of one cell, by their round, so that a wake reaches few other sleepers */
    TRIES = 4,                /* how often a call tries what another thread's step prevented, before it waits */
    NAP = 1000000,            /* nanoseconds of a sleep from which nobody wakes the thread */
    ROWS = 32,                /* the number of guards of entries */
    COLUMNS = 256             /* the number of lists under each guard */
};
#define DRAWS TRIES
#define THIS_THREAD (&qolb_own_)
#define GHOST(event) ((void)0) /* an event that only the model checker counts */
#endif

/* States what must hold at a boundary. It is checked with -DQOLB_CHECKED, in builds with a sanitizer, and by the model
 * checker. In other builds it does nothing. */
#if defined(__has_feature)
#if __has_feature(address_sanitizer) || __has_feature(thread_sanitizer)
#define QOLB_CHECKED
#endif
#endif
#ifdef INVARIANT
#elif defined(QOLB_CHECKED) || defined(__SANITIZE_ADDRESS__) || defined(__SANITIZE_THREAD__)
#undef NDEBUG
#include <assert.h>
#define INVARIANT(it) assert(it)
#else
#define INVARIANT(it) (0 ? (void)(it) : (void)0) /* never evaluates `it`, but uses what `it` names */
#endif

/* ---- A lock's bytes ---- */

enum { LOCK_BYTES = 320, LINE = 64, SPARE_WORDS = 3 };

/* How the bytes of a qolb_lock are used. The first part is written once, when the lock is opened. What the holder
 * writes lies behind it. Then come the core's words. They begin so that the lock word shares no cache line with
 * `block`, which each call reads, and so that the tail and the cells, which are the last words, lie in one cache line.
 */
struct __attribute__((may_alias)) lock {
    /* The opening thread writes it: NULL, OPENING, AWAITED, and then the address of `block`. */
    struct qolb_core core;
    uint64_t limit;                      /* the barging limit, from the initialiser; with 0 and 1 it is strict */
    char block[LAYOUT_CORE_BLOCK_BYTES]; /* the core's block, which is never written after opening */
    uint64_t label;                      /* the opening's own; the opening thread writes it */
    struct waiter *waits;                /* the threads that wait at a condition; the holder writes it */
    _Atomic uint64_t beyond_by;          /* the number of the holding thread, if its table had no room; else 0 */
    uint64_t words[LAYOUT_CORE_WORDS + SPARE_WORDS]; /* the core's words, and spare words around them (spare_of) */
    /* The number of threads in a call that have no ticket: they spin before they draw one, wait at a condition, or wait
     * until fewer requests are open. Each of them counts itself. A lock is not destroyed meanwhile. */
    atomic_uint without_ticket;
    uint32_t unused;
};

_Static_assert(LAYOUT_CORE_WORDS * sizeof(uint64_t) == LAYOUT_CORE_WORDS_BYTES, "a core has its words alone");
_Static_assert(sizeof(struct lock) == LOCK_BYTES && sizeof(qolb_lock) == LOCK_BYTES, "the size that qolb.h says");
_Static_assert(LAYOUT_ROUNDS_BIT >= 32, "a grant changes the half of a cell at which waiters sleep");

static inline struct lock *lock_of(const qolb_lock *lock) { return (struct lock *)(uintptr_t)lock; }

static inline int is_barging(const struct lock *lock) { return lock->limit > 1; }

/* Returns the address of the core's words. It depends only on the lock's address, so a thread can compute it even when
 * the lock no longer exists. */
static inline uint64_t *words_of(const struct lock *lock) {
    uintptr_t at = (uintptr_t)lock->words;
    return (uint64_t *)(at % LINE <= SPARE_WORDS * sizeof(uint64_t) ? at : (at + LINE - 1) / LINE * LINE);
}

/* What the spare words before and behind the core's words are used for: the ticket number of a holder whose table had
 * no room, and the slots of the core, which has none. */
enum spare { KEPT_NUMBER, SLOTS };
static inline uint64_t *spare_of(struct lock *lock, enum spare which) {
    ptrdiff_t before = words_of(lock) - lock->words;
    return lock->words + (which < before ? which : which + LAYOUT_CORE_WORDS);
}

/* ---- Looks at the words: for waiting, to tell a call that gives up whether the lock is shut, and for destroying ----
 */

enum { WORD_STATE = LAYOUT_HELD | LAYOUT_RESERVED };

static inline uint64_t load_word(const uint64_t *word) { return __atomic_load_n(word, __ATOMIC_SEQ_CST); }
static inline uint64_t lock_word_of(const struct lock *lock) { return load_word(words_of(lock) + LAYOUT_LOCK_WORD); }

/* Returns the number of the next ticket. */
static inline uint64_t tail_word(const struct lock *lock) { return load_word(words_of(lock) + LAYOUT_TAIL_WORD); }

/* Returns the result of a call that gives up: CLOSED if the lock is shut. The call must still be allowed to use the
 * lock. */
static inline uint32_t closed_or(uint32_t result, const struct lock *lock) {
    return lock_word_of(lock) & LAYOUT_SHUT ? (uint32_t)QOLB_CLOSED : result;
}

static inline uint64_t *cell_of(uint64_t *words, uint64_t number) {
    return words + LAYOUT_FIRST_CELL + number % TICKETS_IN_ROUND;
}

/* Return the 32 bits of the lock word at which the queue head sleeps, the 32 bits of a ticket's cell at which a waiter
 * sleeps, and the class of such a sleeper. */
static inline uint32_t *lock_word_half(uint64_t *words) { return (uint32_t *)(words + LAYOUT_LOCK_WORD); }
static inline uint32_t *cell_half(uint64_t *words, uint64_t number) { return (uint32_t *)cell_of(words, number) + 1; }
static inline uint32_t class_of(uint64_t number) {
    return (uint32_t)1 << number / TICKETS_IN_ROUND % CLASSES_OF_SLEEPERS;
}

/* Returns the number of rounds that are to be granted before this ticket is at its turn. It can be negative if `number`
 * was read before the cell, and the ticket was at its turn long ago. */
static inline int32_t rounds_to_go(const struct lock *lock, uint64_t number) {
    uint64_t rounds = number / TICKETS_IN_ROUND + 1 - (load_word(cell_of(words_of(lock), number)) >> LAYOUT_ROUNDS_BIT);
    return (int32_t)((uint32_t)rounds << (LAYOUT_ROUNDS_BIT - 32)) >> (LAYOUT_ROUNDS_BIT - 32);
}

static inline int has_room(const struct lock *lock) { return rounds_to_go(lock, tail_word(lock)) < MOST_OPEN_ROUNDS; }

/* Rebuilds a ticket from what is kept of it. No call reads more of a ticket that is asleep or at its turn. */
static inline struct qolb_ticket kept_ticket(const struct lock *lock, uint64_t number, uint32_t state) {
    return (struct qolb_ticket){.number = number, .label = lock->label, .state = state};
}

/* Sleeps for NAP, or until `until` if that is sooner. Nobody wakes the thread. */
static inline void nap(uint64_t until) {
    atomic_uint nobody_wakes = 0;
    uint64_t now = until == FOR_EVER ? 0 : qolb_now_(), time = until <= now ? 0 : until - now;
    if (time) qolb_sleep_at_(&nobody_wakes, 0, time < NAP ? time : NAP);
}

/* ---- opens.c ---- */

enum { OPENING = 1, AWAITED = 2 };

static inline uintptr_t own_of(const struct lock *lock) {
    return (uintptr_t)__atomic_load_n(&lock->core.at, __ATOMIC_ACQUIRE);
}

static inline int is_open(const struct lock *lock) { return own_of(lock) > AWAITED; }

/* Opens the lock, unless it is open. If another thread is opening it, the calling thread sleeps until it is open. */
HIDDEN void qolb_open_(struct lock *lock);

/* ---- turns.c ---- */

/* A thread's acquisition of a lock, or its wait for a lock. */
struct turn {
    struct qolb_ticket ticket;
    /* In a thread's table: the address of the core of the lock that the place is used for, or was last used for, and
     * marks. So one comparison with the lock's `core.at` says that the lock is open and whether this thread holds it.
     */
    uintptr_t core;
};

/* The marks. A turn in a table has the mark LAST or HELD. It also has SLEPT if its thread slept while it waited, until
 * the turn is passed on. */
enum { LAST = 1, HELD = 2, SLEPT = 4, MARKS = 7 };

struct own {
    struct turn table[MOST_HELD];
    uint64_t number; /* the thread's number, which no other thread of the process ever has; 0 until it is drawn */
};

extern HIDDEN _Alignas(LINE) BY_THREAD struct own qolb_own_;

/* Returns the thread's own place for this lock. The asm statement keeps the compiler from computing it twice. */
static inline struct turn *home_of(const struct lock *lock) {
    struct turn *at = &THIS_THREAD->table[(uintptr_t)lock / LINE % MOST_HELD];
    __asm__("" : "+r"(at));
    return at;
}

static inline int has(const struct turn *at, unsigned mark) { return (at->core & mark) != 0; }

/* Returns whether the place is for this lock, which is then open, and has exactly these marks. */
static inline int is_at(const struct turn *at, const struct lock *lock, unsigned marks) {
    return at->core == own_of(lock) + marks;
}

/* Returns the lock of a place that has one. */
static inline struct lock *lock_by(const struct turn *at) {
    return (struct lock *)((at->core & ~(uintptr_t)MARKS) - offsetof(struct lock, block));
}

/* Notes that from now on the thread holds the lock by this place. */
static inline void hold_by(struct turn *at, const struct lock *lock) {
    at->core = own_of(lock) + HELD + (at->core & SLEPT);
}

/* Return whether this is the turn of a holder: of a strict lock, or of a barging lock. */
static inline int is_strict_turn(const struct turn *at) {
    return at->ticket.state == QOLB_TICKET_SERVED_ || at->ticket.state == QOLB_TICKET_SERVED_SHUT_;
}
static inline int is_inside(const struct turn *at) {
    return at->ticket.state == QOLB_TICKET_INSIDE_ || at->ticket.state == QOLB_TICKET_INSIDE_SHUT_;
}

HIDDEN uint64_t qolb_draw_number_(void);
static inline uint64_t own_number(void) { return THIS_THREAD->number ? THIS_THREAD->number : qolb_draw_number_(); }

HIDDEN int qolb_holds_(const struct lock *lock);

/* Takes from the calling thread the turn by which it holds the lock, or returns NULL if it does not hold it. The turn
 * is one of its table, or `beyond`, to which it is moved from the lock. */
HIDDEN struct turn *qolb_take_turn_(struct lock *lock, struct turn *beyond);

/* Returns the place for the calling thread's turn at this lock: one of its table, or `beyond`. The thread must not hold
 * the lock. */
HIDDEN struct turn *qolb_place_for_(const struct lock *lock, struct turn *beyond);

/* Notes that from now on the thread holds the lock by this turn. A turn that is `beyond` is moved into the lock. */
HIDDEN void qolb_keep_turn_(struct lock *lock, struct turn *at, const struct turn *beyond);

/* ---- After a release ---- */

/* What a thread still knows of a lock that it has released. The memory of the lock may be gone, so these are used only
 * to wake and to compare. None of them is followed as a pointer. */
struct released {
    uintptr_t lock; /* its address */
    uint64_t *words;
    uint64_t label;
};

static inline struct released released_of(const struct lock *lock, const struct turn *at) {
    return (struct released){(uintptr_t)lock, words_of(lock), at->ticket.label};
}

/* ---- abandoned.c (entries.h declares more of it) ---- */

struct entry;

/* Abandons a ticket that WAITS, for a call that gives up and that may have a spare entry. Returns ASLEEP, and has taken
 * over the ticket and the entry; or GRANTED, if the ticket is at its turn; or WAITING, if there is no memory or no room
 * at the ticket's cell, and nothing changed. */
HIDDEN uint32_t qolb_abandon_(struct lock *lock, struct qolb_ticket *ticket, struct entry **spare);

/* Stands in the place of a ticket's number for the queue head, which sleeps at the lock word. */
#define HEAD UINT64_MAX

/* Frees all guards in the child of a fork, which does not have the threads of the parent that had taken a guard. */
HIDDEN void qolb_free_guards_(void);

/* ---- leave.c ---- */

/* End a turn of the queue. They wake the next waiter, and after a sleep also the waiter behind it, and call the
 * callback of a task that is due, in which this thread may enter and leave locks. Afterwards the lock may no longer
 * exist, unless the ticket is inside by the lock word; then no task is due. The first goes on after a release that
 * returned `got`. */
HIDDEN void qolb_end_turn_(struct lock *lock, struct turn *at, uint32_t got);
static inline void qolb_pass_on_(struct lock *lock, struct turn *at) { qolb_end_turn_(lock, at, QOLB_UNFINISHED_); }

/* Passes on what a call that entered must not keep, which the ticket's state says: the turn of the queue of a queue
 * head, or a turn at which it was told that the lock is shut. Afterwards the lock may no longer exist, unless the
 * ticket is inside by the lock word. */
HIDDEN void qolb_settle_(struct lock *lock, struct turn *at);

/* Leave the lock; the second shuts it before. Afterwards the lock may no longer exist. */
HIDDEN void qolb_leave_at_(struct lock *lock, struct turn *at);
HIDDEN void qolb_shut_at_(struct lock *lock, struct turn *at);

/* ---- enter.c ---- */

/* Enters by a turn that has no request and need not be in a table, and waits until this time of CLOCK_MONOTONIC.
 * Returns GRANTED, TIMEDOUT or CLOSED. If the thread is counted among the lock's threads without a ticket, the call
 * ends that. */
HIDDEN uint32_t qolb_enter_at_(struct lock *lock, struct turn *at, uint64_t until, int is_counted);

/* Enters in the same way if this needs no waiting. Returns GRANTED, BUSY or CLOSED. */
HIDDEN uint32_t qolb_try_at_(struct lock *lock, struct turn *at);

/* ---- conditions.c ---- */

/* Tells all threads that wait at a condition that the lock is shut. The holder calls it. */
HIDDEN void qolb_tell_shut_(struct lock *lock);

/* Waits as qolb_cond_wait_within does, by a turn that is in no table. */
HIDDEN uint32_t qolb_cond_wait_at_(qolb_cond *cond, struct lock *lock, struct turn *at, uint64_t nanoseconds);

#endif
