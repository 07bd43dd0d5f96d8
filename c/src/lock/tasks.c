/* Tasks, which enter a lock without a waiting thread (qolb_task(3)). This file is tested and model-checked, but not
 * proved.
 *
 * A task draws a ticket as a thread does. While the task waits, its ticket is in an entry (entries.h). The thread that
 * grants this ticket, or that leaves the lock word to the task, marks the task as due and calls its callback
 * (../callbacks.c). From then on the task has the turn. When the task polls, the library checks whether the lock is
 * open, and passes the turn on if the task may not keep it. Therefore a shut reaches waiting tasks one after the other.
 * The entry is allocated before the ticket is drawn, so only the call that enters can run out of memory.
 *
 * When its turn comes, a task of a barging lock becomes the queue head, but it has no thread that could watch the lock
 * word. If the lock word is held, the library puts the task's entry into the list of queue heads. Then it requests the
 * hand-over, so that no barging thread follows the holder, and announces that the head sleeps. The call that leaves the
 * lock word reports the sleeper to the leaving thread, which searches the list and takes the lock word for the task.
 *
 * One guard protects all tasks of a lock. Callbacks are called without this guard. A thread that passes a turn on or
 * leaves calls callbacks only after everything else is done, because a callback may use any task and any lock. */
#include "entries.h"

struct entries qolb_tasks_;

/* The key of a task's callback is the task's address. */
#ifndef EXPLORED
#define KEY_OF(task) ((uintptr_t)(task))
#endif

static struct task *task_of(qolb_task *task) { return (struct task *)task; }

static struct link **list_for(const struct entry *e) { return list_of(&qolb_tasks_, (uintptr_t)e->lock, e->number); }

/* Takes the entry out of its list, and takes back the announced sleep. Returns the ticket, which WAITS or is AT_TURN.
 */
static struct qolb_ticket ticket_out(struct entry *e) {
    take_out(&qolb_tasks_, list_for(e), find_before(list_for(e), (uintptr_t)e->lock, e->number));
    return e->number == HEAD ? kept_ticket(e->lock, e->task->number, QOLB_TICKET_AT_TURN_) : retracted(e);
}

/* ---- A task's turn ---- */

/* Takes the lock word for a task whose ticket is at its turn of the queue, and whose entry is out. Returns whether the
 * task waits on as the queue head, because the lock word is held. In a strict lock there is no lock word to take. */
static int waits_on(struct entry *e, struct qolb_ticket *ticket) {
    const struct qolb_core *core = &e->lock->core;
    INVARIANT(ticket->state == QOLB_TICKET_AT_TURN_ && e->task);
    if (!is_barging(e->lock) || qolb_core_take_lock_word_proved_(core, ticket) != QOLB_WAITING) return 0;
    e->number = HEAD;
    GHOST(hook_is_head(ticket));
    put_in(&qolb_tasks_, list_for(e), e);
    do {
        if (qolb_core_request_handoff_proved_(core, ticket) == QOLB_DONE &&
            qolb_core_announce_head_sleep_proved_(core, ticket) == QOLB_ASLEEP_)
            return 1;
    } while (qolb_core_take_lock_word_proved_(core, ticket) == QOLB_WAITING);
    take_out(&qolb_tasks_, list_for(e), find_before(list_for(e), (uintptr_t)e->lock, e->number));
    return 0;
}

/* Makes the task of an entry that is out due, and returns the key of its callback. Once the guard is returned, the task
 * may no longer exist. */
static uint64_t make_due(struct entry *e, const struct qolb_ticket *ticket) {
    struct task *task = e->task;
    uint64_t key = task->callback.key;
    INVARIANT(atomic_load(&task->state) == WAITS && task->entry == e);
    task->entry = NULL;
    task->turn = ticket->state;
    atomic_store(&task->state, DUE);
    qolb_list_(callbacks_of_task(key), &task->callback);
    return key;
}

enum found qolb_find_task_(const struct released *it, uint64_t number, struct granted *out) {
    struct link **list = list_of(&qolb_tasks_, it->lock, number);
    struct entry *gone = NULL;
    enum found found = NOBODY;
    if (!last_of(list)) return NOBODY;
    atomic_uint *guard = guard_at(it->lock);
    struct link *before = find_before(list, it->lock, number);
    if (before && ((struct entry *)before->next)->lock->label == it->label) {
        struct entry *e = (struct entry *)before->next;
        *out = (struct granted){.lock = e->lock, .ticket = ticket_out(e)};
        found = e->task ? A_TASK : GIVEN_UP;
        if (found == GIVEN_UP || !waits_on(e, &out->ticket)) gone = e;
        if (found == A_TASK && gone) out->key = make_due(e, &out->ticket);
    }
    return_guard(guard);
    qolb_free_entry_(gone);
    return found;
}

/* ---- Entering ---- */

static void hold(struct task *me, const struct turn *at) {
    INVARIANT(is_strict_turn(at) || is_inside(at));
    me->turn = at->ticket.state;
    me->number = at->ticket.number;
    me->entry = NULL;
    atomic_store(&me->state, HOLDS);
}

/* Decides about the turn of a task that is due, and returns GRANTED or CLOSED. A task that is told CLOSED is made idle
 * before it passes its turn on, because the callback of another task may enter with this task. */
static uint32_t settle(struct task *me) {
    struct lock *lock = me->lock;
    struct turn at = {.ticket = kept_ticket(lock, me->number, me->turn)};
    uint32_t got = at.ticket.state == QOLB_TICKET_HEAD_INSIDE_SHUT_ ? QOLB_CLOSED : QOLB_GRANTED;
    if (at.ticket.state == QOLB_TICKET_AT_TURN_) got = qolb_core_check_open_proved_(&lock->core, &at.ticket);
    if (got != QOLB_GRANTED) atomic_store(&me->state, IDLE);
    qolb_settle_(lock, &at);
    if (got == QOLB_GRANTED) hold(me, &at);
    return got;
}

/* Puts the entry into its list, unless the ticket is at its turn. After WAITING the task will be due, or already is,
 * and may no longer exist. After GRANTED it is at its turn, and in a barging lock it has the lock word. */
static uint32_t stand_for(struct entry *e, struct qolb_ticket *ticket) {
    uint32_t got = QOLB_GRANTED;
    e->number = ticket->number;
    atomic_uint *guard = guard_at((uintptr_t)e->lock);
    if (ticket->state == QOLB_TICKET_WAITING_) got = stand(&qolb_tasks_, list_for(e), e, ticket);
    while (got == QOLB_FULL_) { /* 65,535 threads sleep at the ticket's cell */
        return_guard(guard);
        nap(FOR_EVER);
        take_guard(guard);
        got = stand(&qolb_tasks_, list_for(e), e, ticket);
    }
    if (got == QOLB_GRANTED && waits_on(e, ticket)) got = QOLB_ASLEEP_;
    return_guard(guard);
    if (got == QOLB_ASLEEP_) return QOLB_WAITING;
    qolb_free_entry_(e);
    return QOLB_GRANTED;
}

/* Draws a ticket, and waits for its turn by an entry. Returns WAITING (the task may no longer exist), GRANTED, CLOSED
 * or NO_MEMORY. */
static uint32_t draw_and_stand(struct task *me, struct qolb_ticket *ticket) {
    struct entry *e = has_room(me->lock) ? qolb_new_entry_(me->lock, me) : NULL;
    if (!e) return QOLB_NO_MEMORY;
    me->entry = e;
    atomic_store(&me->state, WAITS);
    qolb_tell_release_(&me->callback); /* another thread may list it */
    qolb_core_draw_proved_(&me->lock->core, ticket);
    me->number = ticket->number;
    if (stand_for(e, ticket) == QOLB_WAITING) return QOLB_WAITING;
    me->turn = ticket->state;
    return settle(me);
}

enum qolb_result qolb_task_enter(qolb_task *task, qolb_lock *of, void (*call)(void *), void *arg) {
    struct task *me = task_of(task);
    struct lock *lock = lock_of(of);
    if (!call || atomic_load(&me->state) != IDLE) return QOLB_MISUSE;
    qolb_open_(lock);
    struct turn at = {0};
    me->lock = lock;
    uint32_t got = qolb_try_at_(lock, &at);
    if (got == QOLB_GRANTED) hold(me, &at);
    if (got != QOLB_BUSY) return got;
    me->callback = (struct callback){.key = KEY_OF(me), .call = call, .arg = arg};
    return draw_and_stand(me, &at.ticket);
}

enum qolb_result qolb_task_enter_fd(qolb_task *task, qolb_lock *lock, int fd) {
    return fd < 0 ? QOLB_MISUSE : qolb_task_enter(task, lock, qolb_add_to_descriptor_, (void *)(intptr_t)fd);
}

/* ---- Polling, and giving up ---- */

/* Gives up the request of a task that waits, and returns its ticket. If the turn is near, the entry is taken out, and
 * the ticket is FREE, or AT_TURN and must be passed on. If the turn is far, the entry stays in the list for the ticket,
 * which is given up. */
static struct qolb_ticket withdraw(struct task *me, struct entry **gone) {
    struct entry *e = me->entry;
    me->entry = NULL;
    if (e->number != HEAD && rounds_to_go(e->lock, e->number) > MOST_ROUNDS_NEAR) {
        e->task = NULL;
        GHOST(hook_withdraws());
        return (struct qolb_ticket){.state = QOLB_TICKET_FREE_};
    }
    struct qolb_ticket ticket = ticket_out(e);
    *gone = e;
    if (ticket.state == QOLB_TICKET_WAITING_) qolb_core_withdraw_proved_(&e->lock->core, &ticket);
    return ticket;
}

/* Returns the state of a task. It takes the guard, because a thread that makes a task due still uses the task after it
 * has set the state. If `withdrawn` is not NULL, a task that WAITS gives up and is IDLE, and `withdrawn` gets its
 * ticket, which is FREE or AT_TURN. */
static unsigned state_of(struct task *me, struct qolb_ticket *withdrawn) {
    struct entry *gone = NULL;
    atomic_uint *guard = guard_at((uintptr_t)me->lock);
    unsigned state = atomic_load(&me->state);
    if (withdrawn && state == WAITS) {
        atomic_store(&me->state, IDLE);
        *withdrawn = withdraw(me, &gone);
    }
    return_guard(guard);
    qolb_free_entry_(gone);
    return state;
}

enum qolb_result qolb_task_poll(qolb_task *task) {
    struct task *me = task_of(task);
    unsigned state = state_of(me, NULL);
    if (state == WAITS) return QOLB_WAITING;
    if (state != DUE) return QOLB_MISUSE;
    qolb_unlist_(callbacks_of_task(me->callback.key), &me->callback);
    return settle(me);
}

/* While the task waits or has a turn, the lock exists, so this may look at it. */
enum qolb_result qolb_task_cancel(qolb_task *task) {
    struct task *me = task_of(task);
    unsigned state = atomic_load(&me->state);
    if (state == IDLE) return QOLB_DONE;
    if (state == HOLDS) return QOLB_MISUSE;
    struct lock *lock = me->lock;
    struct turn at = {0};
    uint32_t told = closed_or(QOLB_WITHDRAWN, lock);
    state = state_of(me, &at.ticket);
    qolb_unlist_(callbacks_of_task(me->callback.key), &me->callback);
    if (state == WAITS) {
        qolb_settle_(lock, &at);
        return told;
    }
    if (settle(me) == QOLB_CLOSED) return QOLB_CLOSED;
    GHOST(hook_withdraws());
    qolb_task_leave(task);
    return QOLB_WITHDRAWN;
}

/* ---- Holding, and leaving ---- */

int qolb_task_holds(const qolb_task *task) { return atomic_load(&((const struct task *)task)->state) == HOLDS; }

static enum qolb_result leave(struct task *me, int shuts) {
    struct lock *lock = me->lock;
    if (atomic_load(&me->state) != HOLDS) return QOLB_MISUSE;
    struct turn at = {.ticket = kept_ticket(lock, me->number, me->turn)};
    atomic_store(&me->state, IDLE);
    if (shuts) qolb_shut_at_(lock, &at);
    else qolb_leave_at_(lock, &at);
    return QOLB_DONE;
}

enum qolb_result qolb_task_leave(qolb_task *task) { return leave(task_of(task), 0); }

enum qolb_result qolb_task_shut(qolb_task *task) { return leave(task_of(task), 1); }
