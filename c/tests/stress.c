/* Tests one lock with 200 threads. Each thread enters, enters with a timeout, tries, enters with a task, and waits on a
 * condition, in a random order. No addition may be lost, no two threads may hold the lock at once, and each thread must
 * make progress.
 *
 *   build/stress SECONDS BARGING_LIMIT [SEED]
 *
 * The program ends with an error if a thread is not granted the lock within ten times SECONDS. It prints the total
 * number of acquisitions, and the smallest and the largest number of acquisitions by a single thread. */
#define _GNU_SOURCE
#include <qolb.h>

#include "waiters.h"

enum { THREADS = 200 };

static qolb_lock lock;
static qolb_cond cond = QOLB_COND_INIT;
static atomic_int over;
static long additions, inside, signals;

struct worker {
    _Alignas(QOLB_NODE_ALIGN) pthread_t id;
    uint32_t seed;
    long turns, late;
    qolb_task task;
    atomic_int due;
};
static struct worker workers[THREADS];

static void turn(struct worker *me) {
    MUST(inside++, 0);
    additions++;
    MUST(qolb_lock_is_mine(&lock) + qolb_task_holds(&me->task), 1);
    MUST(--inside, 0);
    me->turns++;
}

/* Enters in this way, and returns whether the thread holds the lock. */
static int enters(struct worker *me, unsigned way) {
    uint32_t got = way < 10   ? qolb_lock_enter(&lock)
                   : way < 14 ? qolb_lock_enter_within(&lock, drawn(&me->seed) % (20 * MS))
                              : qolb_lock_try(&lock);
    if (got == QOLB_GRANTED) return 1;
    MUST(got, way < 14 ? QOLB_TIMEDOUT : QOLB_BUSY);
    me->late++;
    return 0;
}

/* Waits at the condition for a signal, or for some time. */
static void waits(struct worker *me) {
    uint32_t got = qolb_cond_wait_within(&cond, &lock, drawn(&me->seed) % MS);
    MUST(got == QOLB_GRANTED || got == QOLB_TIMEDOUT, 1);
    turn(me);
}

static void is_due(void *worker) { atomic_store(&((struct worker *)worker)->due, 1); }

/* Enters by a task, polls when it is notified or once before, and gives up after some time. */
static void by_task(struct worker *me) {
    int naps = (int)(drawn(&me->seed) % 32);
    atomic_store(&me->due, 0);
    uint32_t got = qolb_task_enter(&me->task, &lock, is_due, me);
    while (got == QOLB_WAITING && naps-- && !atomic_load(&me->due)) usleep(500);
    if (got == QOLB_WAITING) got = qolb_task_poll(&me->task);
    if (got == QOLB_WAITING) got = qolb_task_cancel(&me->task);
    MUST(got == QOLB_GRANTED || got == QOLB_WITHDRAWN, 1);
    if (got == QOLB_WITHDRAWN) return;
    turn(me);
    MUST(qolb_task_leave(&me->task), QOLB_DONE);
}

static void *works(void *argument) {
    struct worker *me = argument;
    while (!atomic_load(&over)) {
        unsigned way = drawn(&me->seed) % 16;
        if (way == 9) {
            by_task(me);
            continue;
        }
        if (!enters(me, way)) continue;
        turn(me);
        if (way == 0) waits(me);
        if (way == 1 && signals++ >= 0) qolb_cond_signal(&cond);
        if (way == 2) MUST(qolb_lock_enter(&lock), QOLB_MISUSE);
        MUST(qolb_lock_leave(&lock), QOLB_DONE);
        if (way == 3) usleep(drawn(&me->seed) % 2000);
    }
    qolb_cond_broadcast(&cond);
    return NULL;
}

int main(int argc, char **argv) {
    if (argc < 3) return fputs("stress SECONDS BARGING_LIMIT [SEED]\n", stderr), 2;
    double last = atof(argv[1]);
    lock = (qolb_lock)QOLB_LOCK_INIT_BARGING(strtoul(argv[2], NULL, 10));
    alarm((unsigned)(10 * last) + 60);
    for (int k = 0; k < THREADS; k++) {
        workers[k].seed = (uint32_t)(k + 1) * 77773u + (argc > 3 ? (uint32_t)atoi(argv[3]) : 0);
        MUST(pthread_create(&workers[k].id, NULL, works, &workers[k]), 0);
    }
    usleep((useconds_t)(last * 1e6));
    atomic_store(&over, 1);
    long turns = 0, least = -1, most = 0;
    for (int k = 0; k < THREADS; k++) {
        pthread_join(workers[k].id, NULL);
        turns += workers[k].turns;
        if (least < 0 || workers[k].turns < least) least = workers[k].turns;
        if (workers[k].turns > most) most = workers[k].turns;
    }
    printf("barging %s: %ld turns, of one thread %ld to %ld\n", argv[2], turns, least, most);
    MUST(turns, additions);
    MUST(qolb_lock_destroy(&lock), QOLB_DONE);
    return least < 1;
}
