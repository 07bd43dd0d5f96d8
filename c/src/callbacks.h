/* Callbacks: functions that the program supplies. When the turn of a node or a task comes, the library calls its
 * callback instead of waking a thread (callbacks.c). calls.c uses this header for nodes, and lock/tasks.c uses it for
 * tasks.
 *
 * The callbacks of nodes are stored in their line (line.h). The callbacks of tasks are stored in the library and not in
 * the lock, because the memory of a lock may be freed while a thread that has left the lock is still inside
 * `qolb_lock_leave`. */
#ifndef QOLB_CALLBACKS_H
#define QOLB_CALLBACKS_H

#include "common.h"
#include "guard.h"
#include <stdatomic.h>
#include <stdint.h>

/* A notification that a node or a task has requested. */
struct callback {
    struct callback *next; /* in the list */
    uint64_t key;          /* for a node, the number of the word on which it waits; for a task, its address */
    void (*call)(void *);  /* NULL if none is requested since the last off; only the node's caller writes it */
    void *arg;
};

/* A list of callbacks, and those calls of callbacks that threads are in. */
struct callbacks {
    struct callback *_Atomic first; /* written under the guard */
    struct running *running;        /* under the guard */
    atomic_uint guard;
    atomic_uint ended;   /* counts the calls that have ended while another thread waited for them */
    atomic_uint others;  /* the number of users, less one: nodes of the line, and calls that are put off */
    atomic_uint waiting; /* counts the callbacks in the list, and the nodes of the line that sleep */
};

/* The callbacks of tasks, in rows by the address of the task. */
enum { TASK_ROWS = 32 };
struct task_row {
    _Alignas(APART) struct callbacks callbacks;
};
extern HIDDEN struct task_row qolb_task_rows_[TASK_ROWS];

static inline unsigned row_of_task(uint64_t task) { return (task * 0x9e3779b97f4a7c15 >> 32) % TASK_ROWS; }
static inline struct callbacks *callbacks_of_task(uint64_t task) {
    return &qolb_task_rows_[row_of_task(task)].callbacks;
}

/* Put the callback into the list, or take it out if it is there, and return whether it was. The caller has the guard.
 */
HIDDEN void qolb_put_in_list_(struct callbacks *of, struct callback *it);
HIDDEN int qolb_take_out_of_list_(struct callbacks *of, struct callback *it);

/* Puts the callback into the list, under the guard. */
HIDDEN void qolb_list_(struct callbacks *of, struct callback *it);

/* Takes the callback out of the list, and returns WITHDRAWN. If the callback is not there, waits until no other thread
 * is in a call of it, and returns DONE. */
HIDDEN uint32_t qolb_unlist_(struct callbacks *of, struct callback *it);

/* Calls the callback with this key, if the list has one. If the calling thread is already in a callback, the call is
 * put off until that one has returned. */
HIDDEN void qolb_make_call_(struct callbacks *of, uint64_t key);

/* Makes the calls that the calling thread has put off, if it is in a callback. */
HIDDEN void qolb_make_put_off_(void);

/* Ends one use of this list. The last user frees the block of memory that begins here. */
HIDDEN void qolb_let_go_(struct callbacks *of);

/* The callback of a notification by an eventfd: adds 1 to it. */
HIDDEN void qolb_add_to_descriptor_(void *fd);

/* Tell the thread sanitizer that what precedes a release of this address happens before what follows an acquire of it,
 * for example a call of the callback that is there. */
HIDDEN void qolb_tell_release_(const void *at);
HIDDEN void qolb_tell_acquire_(const void *at);

#endif
