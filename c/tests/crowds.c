/* Tests extreme numbers: many calls on locks that time out, many waiting tasks and threads, and many locks on the
 * stack.
 *
 *   build/crowds [SECONDS [THREADS [LOCKS]]]     1 second of calls that time out at once, 1,000 threads, 20,000 locks
 *
 * Prints only errors; if arguments are given, it also prints its measurements. */
#define _GNU_SOURCE
#include <malloc.h>
#include <qolb.h>
#include <string.h>

#include "waiters.h"

enum { GIVEN_UP = 10000, MOST_OPEN = 12288, PASSED_IN_MS = 2, MOST_BYTES = 1 << 20 };

/* With a sanitizer there is less, because it has a heap of its own and takes more time. */
#if defined(__SANITIZE_THREAD__) || defined(__SANITIZE_ADDRESS__)
enum { SANITIZED = 1 };
#else
enum { SANITIZED = 0 };
#endif

static qolb_lock lock;
static int tells;
static const uint32_t barging[] = {0, 2, 1024};

/* Timeouts in nanoseconds that suffice to draw a ticket: of a strict lock, where the call then does not even sleep; and
 * of a barging lock, where a thread spins for 10 us before it draws one. */
enum { SHORT = 1500, SHORT_WITH_SPIN = 20000 };
static uint64_t short_timeout;

static void begin(uint32_t barging) {
    lock = (qolb_lock)QOLB_LOCK_INIT_BARGING(barging);
    short_timeout = barging ? SHORT_WITH_SPIN : SHORT;
}

static double ms_since(double since) { return (seconds(CLOCK_MONOTONIC) - since) * 1e3; }

/* ---- How late a call is that gives up ---- */

enum { WAITERS = 64, LIMIT_MS = 30, ROUNDS = 4 };

struct waiter {
    pthread_t id;
    int with_mutex;
    double late[ROUNDS];
};

static pthread_mutex_t mutex = PTHREAD_MUTEX_INITIALIZER;
static pthread_barrier_t together;

/* Returns how many milliseconds after its timeout the call returned. */
static double is_late(int with_mutex) {
    struct timespec until;
    clock_gettime(CLOCK_REALTIME, &until);
    double since = seconds(CLOCK_MONOTONIC);
    until.tv_nsec += LIMIT_MS * MS;
    until.tv_sec += until.tv_nsec / 1000000000, until.tv_nsec %= 1000000000;
    if (with_mutex) MUST(pthread_mutex_timedlock(&mutex, &until) != 0, 1);
    else MUST(qolb_lock_enter_within(&lock, (uint64_t)LIMIT_MS * MS), QOLB_TIMEDOUT);
    return ms_since(since) - LIMIT_MS;
}

static void *waits(void *argument) {
    struct waiter *me = argument;
    for (int k = 0; k < ROUNDS; k++) {
        pthread_barrier_wait(&together);
        me->late[k] = is_late(me->with_mutex);
    }
    return NULL;
}

static int by_value(const void *one, const void *other) {
    double a = *(const double *)one, b = *(const double *)other;
    return (a > b) - (a < b);
}

static void all_are_late(int with_mutex, double *late) {
    static struct waiter waiters[WAITERS];
    pthread_barrier_init(&together, NULL, WAITERS);
    for (int k = 0; k < WAITERS; k++) {
        waiters[k].with_mutex = with_mutex;
        MUST(pthread_create(&waiters[k].id, NULL, waits, &waiters[k]), 0);
    }
    for (int k = 0; k < WAITERS; k++) {
        pthread_join(waiters[k].id, NULL);
        memcpy(&late[k * ROUNDS], waiters[k].late, sizeof waiters[k].late);
    }
    pthread_barrier_destroy(&together);
    qsort(late, WAITERS * ROUNDS, sizeof *late, by_value);
}

/* In the best of some tries the median is within a millisecond, or within twice that of a mutex in the same try,
 * because the machine may have other work. */
static int late_in_time(uint32_t barging) {
    enum { ALL = WAITERS * ROUNDS, MEDIAN = ALL / 2, P99 = ALL * 99 / 100, TRIES = 5 };
    static double late[2][ALL];
    int in_time = 0;
    begin(barging);
    MUST(qolb_lock_enter(&lock), QOLB_GRANTED);
    pthread_mutex_lock(&mutex);
    for (int k = 0; k < TRIES && !in_time; k++) {
        all_are_late(0, late[0]);
        all_are_late(1, late[1]);
        in_time = late[0][MEDIAN] < 1 || late[0][MEDIAN] < 2 * late[1][MEDIAN];
    }
    pthread_mutex_unlock(&mutex);
    MUST(qolb_lock_leave(&lock), QOLB_DONE);
    if (tells)
        printf("barging %u: late by %.3f ms (median), %.3f (p99), a mutex by %.3f, %.3f\n", barging, late[0][MEDIAN],
               late[0][P99], late[1][MEDIAN], late[1][P99]);
    WANT(SANITIZED || in_time, 1);
    WANT(qolb_lock_destroy(&lock), QOLB_DONE);
    return 0;
}

/* ---- Tasks that acquire and release in callbacks ---- */

static qolb_task tasks[GIVEN_UP];
static int had, depth;

static void has_turn(void *argument) {
    int k = (int)(intptr_t)argument;
    MUST(depth++, 0);
    MUST(qolb_task_poll(&tasks[k]), QOLB_GRANTED);
    MUST(k >= had, 1);
    had = k + 1;
    MUST(qolb_task_leave(&tasks[k]), QOLB_DONE);
    depth--;
}

/* Lets `many` tasks wait, in order. */
static void tasks_wait(int many) {
    memset(tasks, 0, sizeof tasks);
    had = depth = 0;
    for (int k = 0; k < many; k++) MUST(qolb_task_enter(&tasks[k], &lock, has_turn, (void *)(intptr_t)k), QOLB_WAITING);
}

/* ---- Requests that gave up, far from their turns ---- */

static void *gives_up_often(void *times) {
    for (int k = 0; k < (int)(intptr_t)times; k++) MUST(qolb_lock_enter_within(&lock, short_timeout), QOLB_TIMEDOUT);
    return NULL;
}

static void in_another(void *(*does)(void *), int times) {
    pthread_t id;
    MUST(pthread_create(&id, NULL, does, (void *)(intptr_t)times), 0);
    pthread_join(id, NULL);
}

static size_t bytes_in_use(void) { return SANITIZED ? 0 : mallinfo2().uordblks; }

/* Nobody waits for requests that gave up, and one leave passes all of them. The time is that of the thread, in the best
 * of three tries, or of ten if the machine has other work. If more calls give up than requests may be open, the others
 * draw no ticket. A task is before them, because in a barging lock each of them would otherwise be the queue head. */
static int passes(int given_up, uint32_t barging) {
    double best = 1e9, wall = 1e9;
    size_t taken = 0;
    for (int round = 0; round < 3 || (round < 10 && !SANITIZED && best >= PASSED_IN_MS); round++) {
        begin(barging);
        MUST(qolb_lock_enter(&lock), QOLB_GRANTED);
        in_another(gives_up_often, 1);
        tasks_wait(1);
        size_t before = bytes_in_use();
        in_another(gives_up_often, given_up);
        taken = bytes_in_use() - before;
        WANT(SANITIZED || (taken > 20 * (size_t)GIVEN_UP && taken <= MOST_BYTES), 1);
        double since = seconds(CLOCK_MONOTONIC), own_since = seconds(CLOCK_THREAD_CPUTIME_ID);
        MUST(qolb_lock_leave(&lock), QOLB_DONE);
        double took = ms_since(since), own = (seconds(CLOCK_THREAD_CPUTIME_ID) - own_since) * 1e3;
        best = own < best ? own : best;
        wall = took < wall ? took : wall;
        WANT(SANITIZED || bytes_in_use() < before + 4096, 1);
        MUST(qolb_lock_try(&lock), QOLB_GRANTED);
        MUST(qolb_lock_leave(&lock), QOLB_DONE);
        WANT(qolb_lock_destroy(&lock), QOLB_DONE);
    }
    if (tells)
        printf("barging %u: %d given up: %zu bytes, passed in %.3f ms, %.3f of its own\n", barging, given_up, taken,
               wall, best);
    WANT(SANITIZED || best < PASSED_IN_MS, 1);
    return 0;
}

static double until;
static long looks;

static void *looks_often(void *limit) {
    for (looks = 0; seconds(CLOCK_MONOTONIC) < until; looks++)
        MUST(qolb_lock_enter_within(&lock, (uint64_t)(intptr_t)limit), QOLB_TIMEDOUT);
    return NULL;
}

/* Makes calls that give up at once, again and again, while the holder is stalled. */
static int looks_in_vain(double length, int draws, uint32_t barging) {
    begin(barging);
    int limit = draws ? (int)short_timeout : 0;
    MUST(qolb_lock_enter(&lock), QOLB_GRANTED);
    in_another(gives_up_often, 1);
    tasks_wait(1);
    size_t before = bytes_in_use();
    until = seconds(CLOCK_MONOTONIC) + length;
    in_another(looks_often, limit);
    size_t taken = bytes_in_use() - before;
    double since = seconds(CLOCK_MONOTONIC);
    MUST(qolb_lock_leave(&lock), QOLB_DONE);
    double took = ms_since(since);
    if (tells)
        printf("barging %u: %ld calls of at most %d ns in %.0f s: %zu bytes, passed in %.3f ms\n", barging, looks,
               limit, length, taken, took);
    WANT(SANITIZED || taken <= (limit ? MOST_BYTES : 4096), 1);
    WANT(qolb_lock_destroy(&lock), QOLB_DONE);
    return 0;
}

/* ---- Order behind them ---- */

static atomic_int number;
static int order;

struct comer {
    pthread_t id;
    uint64_t limit;
    int place, sleeps;
};

static void *comes(void *argument) {
    struct comer *me = argument;
    about_to_wait(&number);
    long before = used().sleeps;
    MUST(qolb_lock_enter_within(&lock, me->limit), QOLB_GRANTED);
    me->sleeps = (int)(used().sleeps - before);
    me->place = order++;
    MUST(qolb_lock_leave(&lock), QOLB_DONE);
    return NULL;
}

static void starts(struct comer *it, uint64_t limit) {
    pthread_attr_t small;
    *it = (struct comer){.limit = limit};
    atomic_store(&number, 0);
    MUST(pthread_attr_init(&small), 0);
    MUST(pthread_attr_setstacksize(&small, SANITIZED ? 1 << 20 : 1 << 16), 0);
    MUST(pthread_create(&it->id, &small, comes, it), 0);
    pthread_attr_destroy(&small);
    until_asleep(&number);
}

/* A call with a timeout has drawn its ticket while few requests are open. No request that is made later is before it.
 */
static int keeps_the_order(void) {
    struct comer comer[4];
    begin(0);
    order = 0;
    MUST(qolb_lock_enter(&lock), QOLB_GRANTED);
    in_another(gives_up_often, GIVEN_UP);
    for (int k = 0; k < 4; k++) starts(&comer[k], k % 2 ? UINT64_MAX : (uint64_t)100000 * MS);
    MUST(qolb_lock_leave(&lock), QOLB_DONE);
    for (int k = 0; k < 4; k++) {
        pthread_join(comer[k].id, NULL);
        WANT(comer[k].place, k);
    }
    WANT(qolb_lock_destroy(&lock), QOLB_DONE);
    return 0;
}

/* ---- Threads by the thousand ---- */

/* Many threads are served in order. Each is woken for its turn, once for every 128 threads before it, and once ahead.
 */
static int by_the_thousand(int threads) {
    struct comer *comers = calloc((size_t)threads, sizeof *comers);
    long sleeps = 0, most = 0;
    begin(0);
    order = 0;
    MUST(qolb_lock_enter(&lock), QOLB_GRANTED);
    for (int k = 0; k < threads; k++) starts(&comers[k], UINT64_MAX);
    double since = seconds(CLOCK_MONOTONIC);
    MUST(qolb_lock_leave(&lock), QOLB_DONE);
    for (int k = 0; k < threads; k++) {
        pthread_join(comers[k].id, NULL);
        WANT(comers[k].place, k);
        sleeps += comers[k].sleeps;
        most += 3 + 2 * (k / 128);
    }
    if (tells)
        printf("%d threads: in order, in %.3f ms, %ld sleeps, at most %ld\n", threads, ms_since(since), sleeps, most);
    WANT(SANITIZED || sleeps <= most, 1);
    WANT(qolb_lock_destroy(&lock), QOLB_DONE);
    free(comers);
    return 0;
}

/* ---- Tasks by the thousand ---- */

/* Each task acquires and releases in the callback of the one before, and callbacks are not nested. In some runs every
 * other task gives up. */
static int tasks_by_the_thousand(uint32_t barging, int gives_up) {
    begin(barging);
    MUST(qolb_lock_enter(&lock), QOLB_GRANTED);
    tasks_wait(GIVEN_UP);
    for (int k = 0; k < GIVEN_UP; k += 2)
        if (gives_up) MUST(qolb_task_cancel(&tasks[k]), QOLB_WITHDRAWN);
    double since = seconds(CLOCK_MONOTONIC);
    MUST(qolb_lock_leave(&lock), QOLB_DONE);
    if (tells) printf("barging %u: %d tasks in %.3f ms\n", barging, GIVEN_UP >> gives_up, ms_since(since));
    WANT(had, GIVEN_UP);
    WANT(qolb_lock_destroy(&lock), QOLB_DONE);
    return 0;
}

/* If more tasks wait than requests may be open, the others are answered NO_MEMORY, and may enter again. */
static int too_many_tasks(void) {
    begin(0);
    MUST(qolb_lock_enter(&lock), QOLB_GRANTED);
    in_another(gives_up_often, 2 * MOST_OPEN);
    memset(tasks, 0, sizeof tasks);
    WANT(qolb_task_enter(&tasks[0], &lock, has_turn, NULL), QOLB_NO_MEMORY);
    WANT(qolb_task_poll(&tasks[0]), QOLB_MISUSE);
    MUST(qolb_lock_leave(&lock), QOLB_DONE);
    WANT(qolb_task_enter(&tasks[0], &lock, has_turn, NULL), QOLB_GRANTED);
    WANT(qolb_task_leave(&tasks[0]), QOLB_DONE);
    WANT(qolb_lock_destroy(&lock), QOLB_DONE);
    return 0;
}

/* ---- Locks on the stack ---- */

enum { USERS = 4, SHUTS = 1, CLOSES = 2 };

static struct {
    qolb_lock *lock; /* the lock of a round */
    atomic_int round, gone;
    int inside, last;
} stack;

static void await(atomic_int *word, int value) {
    while (atomic_load(word) < value) sched_yield();
}

/* The thread that was granted the lock last leaves it, and then its bytes may be used for something else. */
static void *uses(void *rounds) {
    for (int k = 1; k <= (int)(intptr_t)rounds; k++) {
        await(&stack.round, k);
        qolb_lock *at = stack.lock;
        MUST(qolb_lock_enter(at), QOLB_GRANTED);
        int is_last = ++stack.inside == USERS;
        MUST(qolb_lock_leave(at), QOLB_DONE);
        if (is_last) atomic_store(&stack.gone, k);
    }
    return NULL;
}

static __attribute__((noinline)) int on_the_stack(int round) {
    enum { FILLED = 0x5a };
    union {
        qolb_lock lock;
        unsigned char bytes[sizeof(qolb_lock)];
    } it = {QOLB_LOCK_INIT_BARGING(round % 3 ? 0 : 2)};
    stack.lock = &it.lock, stack.inside = 0;
    atomic_store(&stack.round, round);
    await(&stack.gone, round);
    if (round % 4 & SHUTS) {
        MUST(qolb_lock_enter(&it.lock), QOLB_GRANTED);
        MUST(qolb_lock_shut(&it.lock), QOLB_DONE);
    }
    if (round % 4 & CLOSES) MUST(qolb_lock_destroy(&it.lock), QOLB_DONE);
    memset(it.bytes, FILLED, sizeof it.bytes);
    for (volatile int k = 0; k < 100; k++) continue;
    for (size_t k = 0; k < sizeof it.bytes; k++) WANT(it.bytes[k], FILLED);
    return 0;
}

static int by_the_million(int locks) {
    pthread_t id[USERS];
    double since = seconds(CLOCK_MONOTONIC);
    for (int k = 0; k < USERS; k++) MUST(pthread_create(&id[k], NULL, uses, (void *)(intptr_t)locks), 0);
    for (int round = 1; round <= locks; round++)
        if (on_the_stack(round)) exit(1);
    for (int k = 0; k < USERS; k++) pthread_join(id[k], NULL);
    if (tells) printf("%d locks on the stack in %.0f s\n", locks, ms_since(since) / 1e3);
    return 0;
}

int main(int argc, char **argv) {
    double length = argc > 1 ? atof(argv[1]) : 1;
    int threads = argc > 2 ? atoi(argv[2]) : 1000, locks = argc > 3 ? atoi(argv[3]) : 20000;
    tells = argc > 1;
    alarm((unsigned)length * 6 + 600);
    for (size_t k = 0; k < sizeof barging / sizeof barging[0]; k++) {
        if (late_in_time(barging[k]) || passes(GIVEN_UP, barging[k]) || passes(2 * MOST_OPEN, barging[k])) return 1;
        if (looks_in_vain(length / 6, 0, barging[k]) || looks_in_vain(length / 6, 1, barging[k])) return 1;
        if (tasks_by_the_thousand(barging[k], 0) || tasks_by_the_thousand(barging[k], 1)) return 1;
    }
    return keeps_the_order() || too_many_tasks() || by_the_thousand(SANITIZED ? threads / 5 : threads) ||
           by_the_million(locks);
}
