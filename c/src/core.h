/* The proved core of a lock, which decides which thread is next. crates/qolb_locks/src/exports.rt exports the calls on
 * the core, and the files of lock/ use them. Any number of threads may make calls on one lock at the same time, and no
 * call waits. A call takes at most three atomic steps. A ticket's first call on a lock takes one more, and a release
 * takes two more for each withdrawn request that it skips, of which there are at most 64. Only the call that opens a
 * lock allocates memory.
 *
 * A lock has a queue of tickets and a *lock word*.
 *
 * In a strict lock (one whose barging limit is at most 1) a thread draws a ticket, waits until the ticket's turn
 * comes, checks that the lock is open, and then holds the lock. At the end it releases the ticket's turn.
 *
 * In a barging lock, a thread that arrives while the lock word is free takes the lock word, and gives the word back
 * when it leaves. A thread that does not get the lock word draws a ticket. When the ticket's turn comes, the thread is
 * the queue head. The queue head takes the lock word and then releases its turn in the queue, so that the next waiter
 * becomes the queue head; when it leaves, it gives back the lock word.
 *
 * Each call returns a result that qolb.h or this file defines. MISUSE always means that the call changed nothing.
 *
 * No call can check the following rules, which the callers must keep (docs/PROVED.md):
 *
 * - A `qolb_core` is one that the opening call wrote, or a copy of it.
 * - A ticket consists of zeros, or is as the last call with this ticket left it, except that the caller may set
 *   `lock_word`. At most one call uses a ticket at a time. A ticket may be moved, but it must not be copied. The caller
 *   may store only the number, label and state of a ticket that is not WAITING, and later rebuild the ticket from these
 *   with zeros in the other fields, because calls read no other field of such a ticket except the guess `lock_word`.
 * - Each opening of a lock has a label of its own.
 * - While calls on the lock may be made, its bytes are used for nothing else. Once the bytes are used for something
 *   else, no call on the lock is made. From then on, a ticket of this lock may be used with another lock if the ticket
 *   is FREE. */
#ifndef QOLB_CORE_H
#define QOLB_CORE_H

#include "../proved/qolb_layout.h"
#include "qolb.h"
#include <stdbool.h>

enum qolb_core_answer {
    QOLB_FAR_ = LAYOUT_ANSWER_FAR,       /* too many rounds (ticket.rounds) are before the ticket to withdraw it */
    QOLB_ASLEEP_ = LAYOUT_ANSWER_ASLEEP, /* the sleep is announced: sleep now, at the address and value of the call */
    QOLB_FULL_ = LAYOUT_ANSWER_FULL,     /* 65,535 threads have announced a sleep at this cell: sleep for a time */
    QOLB_UNFINISHED_ = LAYOUT_ANSWER_UNFINISHED /* the ticket still has the turn: call again */
};

/* The state of a ticket. */
enum qolb_ticket_state {
    QOLB_TICKET_FREE_ = LAYOUT_STATE_FREE,               /* it has no request, and may have been used before */
    QOLB_TICKET_WAITING_ = LAYOUT_STATE_WAITING,         /* it waits */
    QOLB_TICKET_ASLEEP_ = LAYOUT_STATE_ASLEEP,           /* it waits, and its sleep is announced */
    QOLB_TICKET_AT_TURN_ = LAYOUT_STATE_AT_TURN,         /* it is at its turn: in a barging lock, the queue head */
    QOLB_TICKET_SERVED_ = LAYOUT_STATE_SERVED,           /* it is served by a strict lock, which is open */
    QOLB_TICKET_SERVED_SHUT_ = LAYOUT_STATE_SERVED_SHUT, /* it is at its turn in a strict lock, which is shut */
    QOLB_TICKET_ENDING_ = LAYOUT_STATE_ENDING,           /* its release was UNFINISHED: only release is allowed */
    /* it has the lock word of an open lock as the queue head, and must release its turn of the queue */
    QOLB_TICKET_HEAD_INSIDE_ = LAYOUT_STATE_HEAD_INSIDE,
    QOLB_TICKET_HEAD_INSIDE_SHUT_ = LAYOUT_STATE_HEAD_INSIDE_SHUT, /* the same in a lock that is shut */
    QOLB_TICKET_INSIDE_ = LAYOUT_STATE_INSIDE,                     /* it has only the lock word, of an open lock */
    QOLB_TICKET_INSIDE_SHUT_ = LAYOUT_STATE_INSIDE_SHUT            /* the same in a lock that is shut */
};

/* A reference to a core, which may be copied. */
struct qolb_core {
    const void *at;
};

/* A ticket, which consists of zeros at first. The head of this file has the rules for its caller, who may write
 * `lock_word` and no other field. A FREE ticket may be used for another lock, or be set to zeros. */
struct qolb_ticket {
    uint64_t number;    /* since it was drawn: the ticket's number. After a release: the last number whose turn has
                            ended, so that ticket number + 1 was granted */
    uint64_t rounds;    /* while it waits, and after FAR: an upper bound on the rounds of four tickets that were still
                            to be granted when it last looked. With 1, at most four tickets are before it */
    uint64_t lock_word; /* a guess of the lock word, for the next barge or leave_lock_word, unless a call says more. A
                            wrong guess costs one more call */
    uint64_t word;      /* after an ASLEEP of announce_sleep: the value of the cell at which to sleep */
    uint64_t sleepers;  /* after a release: how many had announced their sleep at the granted ticket's cell */
    uint64_t label;     /* the label of its lock, or 0. A call with a ticket of another lock is refused by it */
    uint32_t state;     /* enum qolb_ticket_state */
    bool head_sleeps;   /* after a leave: the queue head sleeps at the lock word, and must be woken */
    uint8_t claim;      /* stands for what the proof knows of the ticket */
};

_Static_assert(sizeof(struct qolb_ticket) == LAYOUT_TICKET_BYTES, "a ticket has the proved size");

/* Opens a core in a block of the heap, or in the memory that the calling thread has prepared (heap.h).
 *
 * `barging` is the barging limit: the most acquisitions from that of one queue head until that of the next. With 0 or 1
 * the lock is strict. `label` is not 0, and no other lock of the process ever gets it. Returns DONE; or BAD_NODES
 * (`barging` is above 65,535), MISUSE (`label` is 0) or NO_MEMORY, and nothing changed. */
uint32_t qolb_core_open_proved_(uint64_t barging, uint64_t label, struct qolb_core *out);

/* Draws the next ticket, and looks whether it is at its turn. Returns GRANTED (it is), WAITING, or MISUSE (the ticket
 * has a request or is inside). */
uint32_t qolb_core_draw_proved_(const struct qolb_core *, struct qolb_ticket *);
/* Draws a ticket of a strict lock, and makes check_open (below) if it is granted. Returns GRANTED (SERVED), CLOSED
 * (SERVED_SHUT), WAITING, or MISUSE (as draw does, and for a barging lock). */
uint32_t qolb_core_draw_and_check_proved_(const struct qolb_core *, struct qolb_ticket *);
/* Draws a ticket if its request can still be withdrawn. Returns GRANTED, WAITING (`rounds` is at most 15), or MISUSE as
 * draw does; or FAR or BUSY (another thread drew at that moment), and then no ticket is drawn. */
uint32_t qolb_core_draw_near_proved_(const struct qolb_core *, struct qolb_ticket *);
/* Draws a ticket if it is at its turn at once. Returns GRANTED, BUSY (no ticket is drawn), or MISUSE as draw does. The
 * result does not say whether the lock is shut. */
uint32_t qolb_core_try_draw_proved_(const struct qolb_core *, struct qolb_ticket *);
/* Looks whether the ticket is at its turn. Returns GRANTED, WAITING, or MISUSE (its state is not WAITING). */
uint32_t qolb_core_poll_proved_(const struct qolb_core *, struct qolb_ticket *);

/* Counts the waiter as a sleeper of its cell, unless it is at its turn.
 *
 * After ASLEEP, sleep while the upper 32 bits of the cell are those of ticket.word, and then call retract_sleep.
 * Returns GRANTED if the ticket is at its turn. After WAITING (the cell changed at that moment) and FULL the waiter is
 * not counted. Returns MISUSE if the state is not WAITING. */
uint32_t qolb_core_announce_sleep_proved_(const struct qolb_core *, struct qolb_ticket *);
/* Takes back what announce_sleep has counted. Returns GRANTED, WAITING, or MISUSE (the state is not ASLEEP). */
uint32_t qolb_core_retract_sleep_proved_(const struct qolb_core *, struct qolb_ticket *);
/* Withdraws the request. Returns WITHDRAWN (the ticket has no request any more, and the lock may no longer exist),
 * GRANTED (it is at its turn), FAR (ticket.rounds is above 15, and nothing changed), or MISUSE (the state is not
 * WAITING; a sleep must be retracted first). */
uint32_t qolb_core_withdraw_proved_(const struct qolb_core *, struct qolb_ticket *);
/* Ends the turn of the queue, passes withdrawn requests, and grants the next ticket.
 *
 * After DONE, ticket number + 1 is granted, and ticket.sleepers says how many sleep there. A head that is inside is
 * then INSIDE. Any other ticket is FREE, and the lock may no longer exist. Returns UNFINISHED after 64 withdrawn
 * requests, and MISUSE unless the state is AT_TURN, SERVED, SERVED_SHUT, ENDING, HEAD_INSIDE or HEAD_INSIDE_SHUT. */
uint32_t qolb_core_release_proved_(const struct qolb_core *, struct qolb_ticket *);

/* Looks, at the turn of a strict lock, whether the lock is open. Returns GRANTED (the ticket is SERVED), CLOSED (it is
 * SERVED_SHUT: pass the turn on by release, or reopen), or MISUSE unless the state is AT_TURN, SERVED or SERVED_SHUT in
 * a strict lock. */
uint32_t qolb_core_check_open_proved_(const struct qolb_core *, struct qolb_ticket *);
/* Takes the lock word for a barging thread, if the word equals ticket.lock_word, is free for anyone, and is open.
 *
 * Returns GRANTED (the ticket is INSIDE, and ticket.lock_word is the word as the step left it), BUSY (ticket.lock_word
 * is the word that the step found), or MISUSE (the ticket has a request or is inside, or the lock is strict). */
uint32_t qolb_core_barge_proved_(const struct qolb_core *, struct qolb_ticket *);
/* Takes the lock word for the queue head, if the word is free.
 *
 * After GRANTED (HEAD_INSIDE) and CLOSED (HEAD_INSIDE_SHUT) the head is inside, and ticket.lock_word is the word as the
 * step left it. Release the turn of the queue next. After WAITING the word is held, or changed at that moment, and
 * ticket.lock_word is the word that the last step found. Returns MISUSE unless the state is AT_TURN in a barging lock.
 */
uint32_t qolb_core_take_lock_word_proved_(const struct qolb_core *, struct qolb_ticket *);
/* Leaves the lock word, if it equals ticket.lock_word. Returns DONE (the ticket is FREE, ticket.head_sleeps is set, and
 * the lock may no longer exist), BUSY (the word is another, which is now in ticket.lock_word: call again), or MISUSE
 * unless the state is INSIDE or INSIDE_SHUT. */
uint32_t qolb_core_leave_lock_word_proved_(const struct qolb_core *, struct qolb_ticket *);
/* Requests a handoff for the queue head: the thread inside is to leave the lock word to the head alone. Returns DONE,
 * BUSY (the word changed at that moment), or MISUSE unless the state is AT_TURN in a barging lock. */
uint32_t qolb_core_request_handoff_proved_(const struct qolb_core *, struct qolb_ticket *);
/* Announces at the lock word that the queue head sleeps. After ASLEEP, sleep while the lower 32 bits of the lock word
 * are those of ticket.lock_word. Returns WAITING if the word is not held, or changed at that moment; then
 * ticket.lock_word is unchanged. Returns MISUSE unless the state is AT_TURN in a barging lock. */
uint32_t qolb_core_announce_head_sleep_proved_(const struct qolb_core *, struct qolb_ticket *);

/* Shuts the lock for the caller that is served. After DONE (SERVED becomes SERVED_SHUT, and so on) no thread barges,
 * and each ticket that is granted a turn is told CLOSED. Returns MISUSE unless the state is SERVED, HEAD_INSIDE or
 * INSIDE. */
uint32_t qolb_core_shut_proved_(const struct qolb_core *, struct qolb_ticket *);
/* Opens the lock again for a ticket that was told CLOSED at its turn, if no ticket was drawn after it. Returns GRANTED
 * (SERVED_SHUT becomes SERVED, HEAD_INSIDE_SHUT becomes HEAD_INSIDE), BUSY, or MISUSE in any other state. */
uint32_t qolb_core_reopen_proved_(const struct qolb_core *, struct qolb_ticket *);

/* The words of an open lock, where threads sleep and are woken. They never move.
 *
 * Word 0 is the lock word, which any thread may read. Bit 0 says that the handoff is requested, and bit 1 that the head
 * sleeps. Bits 2 and 3 are 0 (free), 1 (held) or 2 (reserved for the head). Bit 4 says that the lock is shut. From bit
 * 5 on it counts the barging threads since the last head. Once the lock may no longer exist, the address is used only
 * to wake. */
static inline uint64_t *qolb_core_words_(const struct qolb_core *core) { return *(uint64_t *const *)core->at; }
/* The upper 32 bits of this ticket's cell, at which a waiter sleeps while they are (uint32_t)(ticket.word >> 32). */
static inline uint32_t *qolb_core_cell_(const struct qolb_core *core, uint64_t number) {
    return (uint32_t *)(qolb_core_words_(core) + LAYOUT_FIRST_CELL + number % LAYOUT_CELLS) + 1;
}
/* The lower 32 bits of the lock word, at which the head sleeps while they are (uint32_t)ticket.lock_word. */
static inline uint32_t *qolb_core_outer_(const struct qolb_core *core) { return (uint32_t *)qolb_core_words_(core); }

#endif
