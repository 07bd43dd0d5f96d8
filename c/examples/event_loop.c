/* An event loop with tasks. One thread runs four jobs, which all enter the same lock, and this thread never blocks
 * except in poll(). Another thread enters the lock as well. Prints 5000. */
#define _GNU_SOURCE
#include <poll.h>
#include <pthread.h>
#include <qolb.h>
#include <stdio.h>
#include <stdlib.h>
#include <sys/eventfd.h>

enum { JOBS = 4, ROUNDS = 1000 };

static qolb_lock lock = QOLB_LOCK_INIT;
static long count;

struct job {
    qolb_task task; /* stays in its place while it waits */
    int event, left;
};

static void take_turn(struct job *it) {
    count++;
    it->left--;
    qolb_task_leave(&it->task);
}

/* Enters the lock again and again, until it has to wait. */
static void ask(struct job *it) {
    while (it->left > 0) {
        uint32_t got = qolb_task_enter_fd(&it->task, &lock, it->event);
        if (got == QOLB_WAITING) return;
        if (got != QOLB_GRANTED) abort();
        take_turn(it);
    }
}

/* Polls after a notification. If that was too early, another one will be made. */
static void look(struct job *it) {
    eventfd_t times;
    eventfd_read(it->event, &times);
    if (qolb_task_poll(&it->task) != QOLB_GRANTED) return;
    take_turn(it);
    ask(it);
}

static void *other(void *unused) {
    for (int round = 0; round < ROUNDS; round++) {
        if (qolb_lock_enter(&lock) != QOLB_GRANTED) abort();
        count++;
        qolb_lock_leave(&lock);
    }
    return unused;
}

int main(void) {
    static struct job jobs[JOBS];
    struct pollfd events[JOBS];
    pthread_t thread;
    if (pthread_create(&thread, NULL, other, NULL)) return 1;
    for (int k = 0; k < JOBS; k++) {
        jobs[k].event = eventfd(0, EFD_NONBLOCK);
        jobs[k].left = ROUNDS;
        events[k] = (struct pollfd){.fd = jobs[k].event, .events = POLLIN};
        ask(&jobs[k]);
    }
    for (int left = JOBS; left > 0;) {
        left = 0;
        for (int k = 0; k < JOBS; k++) left += jobs[k].left > 0;
        if (left == 0 || poll(events, JOBS, -1) < 1) continue;
        for (int k = 0; k < JOBS; k++)
            if (events[k].revents) look(&jobs[k]);
    }
    pthread_join(thread, NULL);
    printf("%ld\n", count);
    return count != (JOBS + 1) * ROUNDS || qolb_lock_destroy(&lock) != QOLB_DONE;
}
