/* Replaces the constants of c/src/lock/lock.h when the lock is model-checked. ../explore_lock.py includes this file
 * before each file of the library, and sets WIDTH. The constants are smaller than those of the library: tables have
 * fewer places, and a thread polls fewer times before it makes the same decision. Each scene sets the limits on tickets
 * and the memory for entries. All tasks have the same key. lock_scenes.c stores the data of each thread, because one
 * thread of the system runs all threads of the model. */
#ifndef EXPLORED_H
#define EXPLORED_H

#define _GNU_SOURCE

#include <stddef.h>
#include <stdint.h>

enum { TICKETS_IN_ROUND = WIDTH, MOST_HELD = 1, CLASSES_OF_SLEEPERS = 2, TRIES = 2, NAP = 1000, ROWS = 1, COLUMNS = 2 };

extern unsigned model_near, model_sleepers, model_open;
extern int model_tries;
#define MOST_ROUNDS_NEAR ((int)model_near)
#define MOST_OPEN_ROUNDS ((int)model_open)
#define DRAWS model_tries

struct own *model_own(void);
#define THIS_THREAD model_own()
#define KEY_OF(task) 1

/* What scenes keep count of: each drawn ticket; each withdrawn one, and each whose entry is abandoned; which threads
 * take the lock word or sleep there, by the same step; and a task that is to be the queue head. */
struct qolb_ticket;
#define GHOST(event) event
void hook_draws(void);
void hook_withdraws(void);
void hook_goes_in(uint64_t label);
void hook_takes_outer(uint64_t label);
void hook_head_sleeps(const struct qolb_ticket *ticket);
void hook_is_head(const struct qolb_ticket *ticket);

/* A fault must be found by the scenes alone, so that the library with it has no invariants (UNCHECKED). In explorer.c.
 * */
void must(int is_so, const char *what);
#ifdef UNCHECKED
#define INVARIANT(it) ((void)sizeof !(it))
#else
#define INVARIANT(it) must(it, "invariant: " #it)
#endif

#endif
