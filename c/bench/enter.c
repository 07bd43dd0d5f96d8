/* Measures how long one thread takes to enter and leave a lock that no other thread requests. The locks are:
 *
 * - a strict qolb_lock, once alone and once while a thread waits on its condition, and a barging qolb_lock;
 * - a node of each kind of line (qolb_acquire and qolb_deqolb);
 * - a pthread_mutex;
 * - with -DMCS, Concurrency Kit's MCS lock, which needs Debian's package libck-dev.
 *
 *   cc -std=c11 -O2 -pthread -Ic/include c/bench/enter.c c/build/libqolb.a -o enter && ./enter [BATCHES]
 *
 * In a round, the thread enters and leaves a lock once. For each lock the program prints the time of a round in
 * nanoseconds, and the ratio of this time to that of a round with the mutex. Both are printed as the minimum and as the
 * median over BATCHES batches (101 by default). The locks alternate: one batch of each lock is measured, then the next
 * batch of each lock, and so on. Use the minimum if other programs run on the machine. With a second argument (./enter
 * 1 strict) the program makes 10,000 rounds with that lock alone, so that valgrind --tool=callgrind
 * --toggle-collect='rounds_of*' can count the instructions. The program always has a second thread, because a mutex is
 * cheaper in a process with only one thread. */
#define _DEFAULT_SOURCE
#include <pthread.h>
#include <qolb.h>
#include <stdio.h>
#include <stdlib.h>
#include <string.h>
#include <time.h>
#include <unistd.h>
#ifdef MCS
#include <ck_spinlock.h>
static ck_spinlock_mcs_t mcs = CK_SPINLOCK_MCS_INITIALIZER;
static ck_spinlock_mcs_context_t context;
#endif

enum { ROUNDS = 10000, MAX_BATCHES = 10001 };

static _Alignas(QOLB_NODE_ALIGN) qolb_node nodes[QOLB_KINDS];
/* A strict lock, a strict lock with a thread at its condition, and a barging lock. */
enum { STRICT, WAITED, BARGING, LOCKS };
static _Alignas(QOLB_NODE_ALIGN) qolb_lock locks[LOCKS];
static qolb_cond cond = QOLB_COND_INIT;
static pthread_mutex_t mutex = PTHREAD_MUTEX_INITIALIZER;

#define ROUNDS_OF(name, enters, leaves)           \
    static void rounds_of_##name(uint32_t kind) { \
        (void)kind;                               \
        for (int k = 0; k < ROUNDS; k++) {        \
            if (enters) abort();                  \
            if (leaves) abort();                  \
        }                                         \
    }

ROUNDS_OF(node, qolb_acquire(&nodes[kind]) != QOLB_GRANTED, qolb_deqolb(&nodes[kind]) != QOLB_DONE)
ROUNDS_OF(lock, qolb_lock_enter(&locks[kind]) != QOLB_GRANTED, qolb_lock_leave(&locks[kind]) != QOLB_DONE)
ROUNDS_OF(mutex, pthread_mutex_lock(&mutex) != 0, pthread_mutex_unlock(&mutex) != 0)
#ifdef MCS
ROUNDS_OF(mcs, (ck_spinlock_mcs_lock(&mcs, &context), 0), (ck_spinlock_mcs_unlock(&mcs, &context), 0))
#endif

enum { MAX_WAYS = QOLB_KINDS + 5 };

static struct way {
    char name[32];
    void (*rounds)(uint32_t kind);
    uint32_t kind;
} ways[MAX_WAYS];
static int count;

static double took[MAX_WAYS][MAX_BATCHES];

static void add_way(void (*rounds)(uint32_t kind), uint32_t kind, const char *name, const char *of) {
    struct way *it = &ways[count++];
    snprintf(it->name, sizeof it->name, name, of);
    it->rounds = rounds;
    it->kind = kind;
}

static void add_ways(void) {
    for (uint32_t kind = 0; kind < QOLB_KINDS; kind++) add_way(rounds_of_node, kind, "node, %s", qolb_kind_name(kind));
    add_way(rounds_of_lock, STRICT, "%s", "strict");
    add_way(rounds_of_lock, WAITED, "%s", "strict, one waits");
    add_way(rounds_of_lock, BARGING, "%s", "barging, limit 1,024");
    add_way(rounds_of_mutex, 0, "%s", "pthread_mutex");
#ifdef MCS
    add_way(rounds_of_mcs, 0, "%s", "MCS");
#endif
}

static double now(void) {
    struct timespec time;
    clock_gettime(CLOCK_MONOTONIC, &time);
    return (double)time.tv_sec * 1e9 + (double)time.tv_nsec;
}

static int by_size(const void *one, const void *other) {
    double a = *(const double *)one, b = *(const double *)other;
    return (a > b) - (a < b);
}

/* Opens a line of three nodes of each kind, of which one is used, and the barging lock. The strict locks are zeros. */
static void opens(void) {
    const qolb_bytes zeros = {{0}};
    for (uint32_t kind = 0; kind < QOLB_KINDS; kind++) {
        qolb_node all[3] = {{0}};
        if (qolb_open(kind, kind, 3, QOLB_NO_LEASE, &zeros, all, 3) != QOLB_DONE) abort();
        nodes[kind] = qolb_move(&all[0]);
    }
    locks[BARGING] = (qolb_lock)QOLB_LOCK_INIT_BARGING(1024);
}

/* A second thread that only sleeps. In a process with one thread the C library's mutex uses no locked instruction. */
static void *sleeps(void *unused) {
    if (qolb_lock_enter(&locks[WAITED]) != QOLB_GRANTED || qolb_cond_wait(&cond, &locks[WAITED]) != QOLB_GRANTED)
        abort();
    return unused;
}

static int of_one(const char *name) {
    for (int k = 0; k < count; k++) {
        if (strcmp(ways[k].name, name) != 0) continue;
        ways[k].rounds(ways[k].kind);
        return 0;
    }
    return fprintf(stderr, "enter: no way is called %s\n", name), 2;
}

int main(int argc, char **argv) {
    int batches = argc > 1 ? atoi(argv[1]) : 101;
    if (batches < 1 || batches > MAX_BATCHES) return 2;
    pthread_t other;
    add_ways();
    opens();
    if (pthread_create(&other, NULL, sleeps, NULL) != 0) return 1;
    usleep(100000);
    if (argc > 2) return of_one(argv[2]);
    for (int b = 0; b < batches; b++) {
        for (int k = 0; k < count; k++) {
            double since = now();
            ways[k].rounds(ways[k].kind);
            took[k][b] = (now() - since) / ROUNDS;
        }
    }
    const double *mutexes = NULL;
    for (int k = 0; k < count; k++) {
        qsort(took[k], (size_t)batches, sizeof took[k][0], by_size);
        if (ways[k].rounds == rounds_of_mutex) mutexes = took[k];
    }
    for (int k = 0; k < count; k++) {
        const double *it = took[k];
        printf("%-18s least %5.1f median %5.1f   %.2f and %.2f of the mutex's\n", ways[k].name, it[0], it[batches / 2],
               it[0] / mutexes[0], it[batches / 2] / mutexes[batches / 2]);
    }
    return 0;
}
