/* The table of the locks that a thread holds (lock.h). This file is tested and model-checked, but not proved.
 *
 * The address of a lock determines its preferred place in the table. If this place is taken, the lock gets any free
 * place. If all places are taken, the number of the holder's ticket is stored in the lock itself. This is possible
 * because a lock has only one holder at a time. So a thread can hold any number of locks without allocating memory for
 * them. If a thread ends while it holds a lock, the lock stays held. */
#include "lock.h"

/* ../../package/qolb.gdb finds the holder of a lock by this table, and repeats these numbers. */
_Alignas(LINE) BY_THREAD struct own qolb_own_;
_Static_assert(sizeof(struct turn) == 64 && offsetof(struct turn, core) == 56, "");
_Static_assert(offsetof(struct turn, ticket.label) == 40, "");
_Static_assert(offsetof(struct lock, label) == 96 && offsetof(struct lock, beyond_by) == 112, "");

/* Returns whether a place says that its thread holds this lock. The place may mean an earlier lock at the same address,
 * whose label is another. */
static int says_held(const struct turn *at, const struct lock *lock) {
    return (at->core & ~(uintptr_t)SLEPT) == own_of(lock) + HELD;
}

static struct turn *find(const struct lock *lock) {
    for (struct turn *at = THIS_THREAD->table; at < THIS_THREAD->table + MOST_HELD; at++)
        if (says_held(at, lock) && at->ticket.label == lock->label) return at;
    return NULL;
}

static int holds_beyond(const struct lock *lock) {
    return THIS_THREAD->number && atomic_load_explicit(&lock->beyond_by, memory_order_relaxed) == THIS_THREAD->number;
}

int qolb_holds_(const struct lock *lock) { return find(lock) || holds_beyond(lock); }

int qolb_lock_is_mine(const qolb_lock *lock) { return qolb_holds_(lock_of(lock)); }

struct turn *qolb_take_turn_(struct lock *lock, struct turn *beyond) {
    struct turn *at = find(lock);
    if (at) {
        INVARIANT(is_strict_turn(at) || is_inside(at));
        at->core -= HELD - LAST;
        return at;
    }
    if (!holds_beyond(lock)) return NULL;
    uint32_t state = is_barging(lock) ? QOLB_TICKET_INSIDE_ : QOLB_TICKET_SERVED_;
    *beyond = (struct turn){.ticket = kept_ticket(lock, *spare_of(lock, KEPT_NUMBER), state)};
    atomic_store_explicit(&lock->beyond_by, 0, memory_order_relaxed);
    return beyond;
}

uint64_t qolb_draw_number_(void) {
    static _Atomic uint64_t threads;
    return THIS_THREAD->number = atomic_fetch_add(&threads, 1) + 1;
}

/* Returns whether a place can be used for this lock. A place that says that the thread holds an earlier lock at the
 * same address is free. A place whose ticket is in use is not, because a call that waits may call the program's malloc,
 * which may enter locks. */
static int is_free(const struct turn *at, const struct lock *lock) {
    return has(at, HELD) ? says_held(at, lock) : at->ticket.state == QOLB_TICKET_FREE_;
}

struct turn *qolb_place_for_(const struct lock *lock, struct turn *beyond) {
    struct turn *at = home_of(lock);
    for (int k = 0; k < MOST_HELD && !is_free(at, lock); k++) at = &THIS_THREAD->table[k];
    if (!is_free(at, lock)) {
        *beyond = (struct turn){0};
        return beyond;
    }
    if (has(at, HELD)) at->ticket = (struct qolb_ticket){0};
    at->core = own_of(lock) + LAST;
    INVARIANT(at->ticket.state == QOLB_TICKET_FREE_);
    return at;
}

void qolb_keep_turn_(struct lock *lock, struct turn *at, const struct turn *beyond) {
    INVARIANT(!qolb_holds_(lock));
    if (at == beyond) {
        *spare_of(lock, KEPT_NUMBER) = at->ticket.number;
        atomic_store_explicit(&lock->beyond_by, own_number(), memory_order_relaxed);
    } else {
        hold_by(at, lock);
    }
}
