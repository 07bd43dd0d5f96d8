/* A program for held.gdb, which asks gdb who holds each lock of the program. Each lock is held by a thread, by a task,
 * or by nobody. gdb numbers the threads in the order in which they begin, and thread 2 ends. */
#define _GNU_SOURCE
#include "want.h"
#include <pthread.h>
#include <qolb.h>
#include <unistd.h>

enum { MANY = 12 }; /* more locks than a thread's table has room for */

static qolb_lock unopened, left, of_main, of_third, of_fourth[MANY], of_task, of_ended;
static qolb_task task;
static pthread_barrier_t all_hold;

static void *ends_as_holder(void *unused) {
    MUST(qolb_lock_enter(&of_ended), QOLB_GRANTED);
    return unused;
}

static void *holds_one(void *unused) {
    MUST(qolb_lock_enter(&of_third), QOLB_GRANTED);
    pthread_barrier_wait(&all_hold);
    pause();
    return unused;
}

static void *holds_many(void *unused) {
    for (int k = 0; k < MANY; k++) MUST(qolb_lock_enter(&of_fourth[k]), QOLB_GRANTED);
    pthread_barrier_wait(&all_hold);
    pause();
    return unused;
}

static void does_nothing(void *unused) { (void)unused; }

/* The debugger stops here. */
__attribute__((noinline)) void is_stuck(void) { __asm__ volatile(""); }

int main(void) {
    pthread_t id;
    WANT(pthread_barrier_init(&all_hold, NULL, 3), 0);
    WANT(pthread_create(&id, NULL, ends_as_holder, NULL) | pthread_join(id, NULL), 0);
    WANT(pthread_create(&id, NULL, holds_one, NULL), 0);
    WANT(pthread_create(&id, NULL, holds_many, NULL), 0);
    WANT(qolb_lock_enter(&left), QOLB_GRANTED);
    WANT(qolb_lock_leave(&left), QOLB_DONE);
    WANT(qolb_lock_enter(&of_main), QOLB_GRANTED);
    WANT(qolb_task_enter(&task, &of_task, does_nothing, NULL), QOLB_GRANTED);
    WANT(qolb_lock_is_mine(&unopened), 0);
    pthread_barrier_wait(&all_hold);
    is_stuck();
    return 0;
}
