/* Compares the speed of a line's nodes with that of MCS locks and a mutex. A thread acquires the line with
 * qolb_acquire, or with a hand-written polling loop. The program contains all these ways of acquiring a line or lock,
 * and measures them in short alternating phases (phases.h). c/bench/nodes builds and runs it.
 *
 *   ./nodes THREADS MICROSECONDS PHASE_MS SECONDS at=0,2,1,3 KIND [loops] [polls] [acquire]
 *   ./nodes machine at=0,1,2,3
 *
 * Thread k is pinned to the k-th processor of the list. KIND is ring, link or ticket. MICROSECONDS is the length of a
 * critical section, in which the holder adds 1 to a lane of the line, or to a number next to the lock. With `loops`,
 * each processor also runs a thread that is always busy, and only qolb_acquire and MCS are measured. With `polls`,
 * hand-written polling loops are measured as well. With `acquire`, only qolb_acquire is measured.
 *
 * Before and after the phases the program measures and prints the time of a hand-over between each two of the
 * processors. For each way of acquiring it then prints a line of tab-separated values:
 *
 * - the name of the way, and the number of phases;
 * - the nanoseconds per critical section over all threads: the median of the phases, their quartiles, and the mean of
 *   all phases;
 * - for the waits that were timed, the 99.9th percentile and the longest wait of a phase, in microseconds, each as the
 *   median of the phases.
 *
 * With `machine` the program prints only the hand-overs and the length of a pause. */
#define _GNU_SOURCE
#include "kinds.h"

enum way { MCS, MCS_YIELDS, MUTEX, ACQUIRE, POLLS_4, POLLS_8, POLLS_16, WAYS };
static const char *const names[WAYS] = {
    "MCS", "MCS that yields", "mutex", "qolb_acquire", "polls, 4 pauses", "polls, 8 pauses", "polls, 16 pauses"};

#include "phases.h"

static int has_loops, has_polls, acquires_alone;

/* Returns whether a way is measured. MCS and loops of polls never sleep, so with more threads than processors only ways
 * that sleep or yield are measured. */
static int is_timed(int by) {
    if (acquires_alone) return by == ACQUIRE;
    if (has_loops) return by == ACQUIRE || by == MCS;
    if (by > ACQUIRE && !has_polls) return 0;
    return threads <= many_processors || (by >= MCS_YIELDS && by <= ACQUIRE);
}

static struct {
    _Alignas(PAGE) ck_spinlock_mcs_t mcs;
    _Alignas(APART) pthread_mutex_t mutex;
    _Alignas(APART) uint64_t number;
} locks[PLACES];

/* What a thread has at each place. */
struct of_thread {
    struct {
        _Alignas(PAGE) qolb_node node;
        _Alignas(APART) ck_spinlock_mcs_context_t context;
    } at[PLACES];
};
static struct of_thread all[MOST];

/* ---- The ways ---- */

static void enter_by_polls(qolb_node *node, int pauses) {
    uint32_t got;
    while ((got = qolb_enqolb(node)) == QOLB_BUSY) __builtin_ia32_pause();
    while (got == QOLB_QUEUED || got == QOLB_WAITING) {
        for (int k = 0; k < pauses; k++) __builtin_ia32_pause();
        got = qolb_poll(node);
    }
    if (got != QOLB_GRANTED) abort();
}

static void enter(long thread, enum way by, int at) {
    struct of_thread *me = &all[thread];
    qolb_node *node = &me->at[at].node;
    switch (by) {
    case MCS: ck_spinlock_mcs_lock(&locks[at].mcs, &me->at[at].context); break;
    case MCS_YIELDS: enter_mcs_yielding(&locks[at].mcs, &me->at[at].context); break;
    case MUTEX: pthread_mutex_lock(&locks[at].mutex); break;
    case ACQUIRE:
        if (qolb_acquire(node) != QOLB_GRANTED) abort();
        break;
    case POLLS_4: enter_by_polls(node, 4); break;
    case POLLS_8: enter_by_polls(node, 8); break;
    default: enter_by_polls(node, 16); break;
    }
}

static void leave(long thread, enum way by, int at) {
    struct of_thread *me = &all[thread];
    uint64_t was;
    if (by > MUTEX) {
        qolb_node *node = &me->at[at].node;
        if (qolb_add_lane(node, 0, 1, &was) != QOLB_DONE || qolb_deqolb(node) != QOLB_DONE) abort();
        return;
    }
    locks[at].number++;
    if (by == MUTEX) pthread_mutex_unlock(&locks[at].mutex);
    else ck_spinlock_mcs_unlock(&locks[at].mcs, &me->at[at].context);
}

static void begin_phase(enum way by, int at) { (void)by, (void)at; }
static void end_phase(long thread, enum way by, int at) { (void)thread, (void)by, (void)at; }

/* ---- The program ---- */

static int open_places(const char *named) {
    uint32_t kind = QOLB_KINDS;
    qolb_bytes zeros = {{0}};
    for (uint32_t k = 0; k < QOLB_KINDS; k++)
        if (strcmp(named, qolb_kind_name(k)) == 0) kind = k;
    for (int p = 0; p < PLACES; p++) {
        qolb_node nodes[MOST] = {{0}};
        if (qolb_open(kind, 1, (uint64_t)threads, QOLB_NO_LEASE, &zeros, nodes, MOST) != QOLB_DONE) return 0;
        for (int k = 0; k < threads; k++) all[k].at[p].node = qolb_move(&nodes[k]);
        pthread_mutex_init(&locks[p].mutex, NULL);
    }
    return 1;
}

int main(int argc, char **argv) {
    if (argc == 3 && strcmp(argv[1], "machine") == 0 && take_processors(argv[2])) return print_machine();
    if (argc < 7 || !take_arguments(argc, argv) || !open_places(argv[6]))
        return fprintf(stderr,
                       "nodes THREADS MICROSECONDS PHASE_MS SECONDS at=0,2,1,3 KIND [loops] [polls] [acquire]\n"),
               2;
    for (int k = 7; k < argc; k++) {
        has_loops |= strcmp(argv[k], "loops") == 0;
        has_polls |= strcmp(argv[k], "polls") == 0;
        acquires_alone |= strcmp(argv[k], "acquire") == 0;
    }
    print_hand_overs(processors, many_processors);
    if (has_loops) begin_loops();
    run_phases(atof(argv[4]));
    if (!has_loops) print_hand_overs(processors, many_processors);
    print_ways();
    fflush(stdout);
    _exit(0);
}
