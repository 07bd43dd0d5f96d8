/* Tests how a thread waits with a node: how often it requests and polls, how long it sleeps, and when it times out. The
 * program replaces the clock by one that it advances itself. It also tests what a call returns if the line is granted
 * or closed between the call's last poll and its withdrawal, and which calls wake which sleepers. A single thread plays
 * several threads. The program is linked with --wrap for clock_gettime, nanosleep, sched_yield, syscall, and the proved
 * calls that request, poll, withdraw and look at a node. Prints only errors. */
#define _GNU_SOURCE
#include "want.h"
#include <probes.h>
#include <proved.h>
#include <sched.h>
#include <spin.h>
#include <stdarg.h>
#include <stdatomic.h>
#include <stdio.h>
#include <stdlib.h>
#include <string.h>
#include <sys/syscall.h>
#include <sys/wait.h>
#include <time.h>
#include <unistd.h>

enum { US = 1000, MS = 1000000 };
#define NEVER UINT64_MAX

/* The time in nanoseconds; and, counted since `begins`, the clock calls, the yields and sleeps, the longest time that a
 * sleep may have lasted, the requests, polls and spins of the node, the looks at a node that does not wait (by which a
 * release finds the next holder), the wakes, and the calls that a waiter must not make. */
static uint64_t now, clocks, yields, sleeps, longest, asks, spins, spun, looks, names, wakes, wrong;

/* In a library with probes, each probe also looks at its node. */
#ifdef DTRACE_PROBE3
enum { BY_PROBE = 1 };
#else
enum { BY_PROBE = 0 };
#endif

/* How often a node polls before it sleeps, as qolb.h says, with four processors. It polls every 60 ns: for 50 us on a
 * line of at most eight nodes, and for 20 us on other lines. It polls for at least 2 us, and for at least 10 us once it
 * has slept. It pauses as long as 90 ns are left. There is one poll before the pauses, one after each pause, and one
 * before the sleep. */
enum { PROCESSORS = 4, PAUSE = 60 };
#define POLLS(nanoseconds) (((nanoseconds)-90) / PAUSE + 1)
enum { NEAR = POLLS(50000), UNKNOWN = POLLS(20000), LEAST = POLLS(2000) };
/* On a line of five to eight nodes it pauses nine times, until 500 ns are over, and then yields in place of each pause.
 * A yield counts as 500 ns. */
enum { FIRST_PAUSES = 9, YIELD = 500 };
#define YIELDS(nanoseconds) (((nanoseconds)-90 - FIRST_PAUSES * PAUSE) / YIELD + 1)
/* The same after a spin that ended with a sleep: half as often, and an eighth of that more. */
enum { LESS = POLLS(NEAR * PAUSE / 2 * 9 / 8) };
/* How long 64 pauses take by the clock in each run in which they are timed, between two clock calls, and the number of
 * these clock calls. */
enum { TIMED = 5 };
static uint64_t lasts[TIMED];
static unsigned timed = 2 * TIMED;

/* The words of the first sleeps and wakes since `begins`, in their order. */
enum { NOTED = 8 };
static const void *slept_at[NOTED], *woken_at[NOTED];

/* An action that happens once: at the first clock call at this time or later, at this yield, during this sleep, before
 * this poll or request, or before a request is withdrawn. */
static struct {
    void (*does)(void);
    uint64_t at, at_yield, at_sleep, at_look, at_ask;
    int at_withdrawal;
} event;

uint32_t __real_qolb_enqolb_proved_(qolb_node *node);
uint32_t __real_qolb_wait_proved_(qolb_node *node, uint64_t polls);
uint32_t __real_qolb_poll_proved_(qolb_node *node);
uint32_t __real_qolb_withdraw_proved_(qolb_node *node);
void __real_qolb_look_proved_(qolb_node *node, struct qolb_look *out);
long __real_syscall(long number, ...);

static void happens(void) {
    void (*does)(void) = event.does;
    event.does = NULL;
    if (does) does();
}

int __wrap_clock_gettime(clockid_t clock, struct timespec *out) {
    if (clock != CLOCK_MONOTONIC) wrong++;
    if (timed < 2 * TIMED) {
        if (timed++ % 2) now += lasts[timed / 2 - 1];
    } else {
        clocks++;
    }
    if (now >= event.at) happens();
    out->tv_sec = (time_t)(now / 1000000000);
    out->tv_nsec = (long)(now % 1000000000);
    return 0;
}

int __wrap_nanosleep(const struct timespec *time, struct timespec *left) {
    (void)time, (void)left;
    wrong++;
    return 0;
}

int __wrap_sched_yield(void) {
    if (++yields == event.at_yield) happens();
    return 0;
}

/* Sleeps. A sleep without a timeout ends for no reason, and so does one in which something happens. Any other sleep
 * lasts until its timeout. */
static void sleep_for(const struct timespec *most) {
    uint64_t lasts = most ? (uint64_t)most->tv_sec * 1000000000 + (uint64_t)most->tv_nsec : NEVER;
    if (most && (most->tv_nsec < 0 || most->tv_nsec >= 1000000000)) wrong++;
    if (lasts > longest) longest = lasts;
    if (++sleeps == event.at_sleep) happens();
    else if (most) now += lasts;
    if (sleeps > 5000) puts("sleeps for ever"), exit(1);
}

long __wrap_syscall(long number, ...) {
    if (number != SYS_futex) return __real_syscall(number);
    va_list rest;
    va_start(rest, number);
    atomic_uint *word = va_arg(rest, atomic_uint *);
    int what = va_arg(rest, int);
    unsigned value = va_arg(rest, unsigned);
    const struct timespec *most = va_arg(rest, const struct timespec *);
    va_end(rest);
    if (what == 128 /* FUTEX_WAIT_PRIVATE */) {
        if (sleeps < NOTED) slept_at[sleeps] = word;
        if (atomic_load(word) == value) sleep_for(most);
    } else if (what == 129 /* FUTEX_WAKE_PRIVATE */) {
        if (wakes < NOTED) woken_at[wakes] = word;
        wakes++;
    } else {
        wrong++;
    }
    return 0;
}

uint32_t __wrap_qolb_enqolb_proved_(qolb_node *node) {
    if (++asks == event.at_ask) happens();
    return __real_qolb_enqolb_proved_(node);
}

uint32_t __wrap_qolb_wait_proved_(qolb_node *node, uint64_t polls) {
    spins++;
    spun += polls;
    return __real_qolb_wait_proved_(node, polls);
}

uint32_t __wrap_qolb_poll_proved_(qolb_node *node) {
    if (++looks == event.at_look) happens();
    return __real_qolb_poll_proved_(node);
}

uint32_t __wrap_qolb_withdraw_proved_(qolb_node *node) {
    if (event.at_withdrawal) happens();
    return __real_qolb_withdraw_proved_(node);
}

void __wrap_qolb_look_proved_(qolb_node *node, struct qolb_look *out) {
    __real_qolb_look_proved_(node, out);
    if (out->state != QOLB_STATE_QUEUED) names++;
}

/* Begins a test. The calling thread forgets what it has learned about spinning. */
static void begins(void (*does)(void)) {
    for (int k = 0; k < SPINS; k++) qolb_learned_[k] = 0;
    clocks = yields = sleeps = longest = asks = spins = spun = looks = names = wakes = 0;
    event.does = does;
    event.at = NEVER;
    event.at_yield = event.at_sleep = event.at_look = event.at_ask = 0;
    event.at_withdrawal = 0;
}

/* ---- How often a waiter polls ---- */

/* The number of pauses in 1,024 ns, by the quickest run, is 1 to 1,024. */
static int counts_pauses(void) {
    static const struct {
        uint64_t runs[TIMED];
        unsigned pauses;
    } rows[] = {
        {{0, 0, 0, 0, 0}, 1024},
        {{64, 64, 64, 64, 64}, 1024},
        {{90000, 800, 5000, 820, 4000}, 81},
        {{70000, 65536, 70000, 70000, 70000}, 1},
        {{70000, 70000, 70000, 70000, 70000}, 1},
    };
    for (size_t k = 0; k < sizeof rows / sizeof rows[0]; k++) {
        memcpy(lasts, rows[k].runs, sizeof lasts);
        timed = 0;
        WANT(qolb_count_pauses_(), rows[k].pauses);
        WANT(timed, 2 * TIMED);
        WANT(atomic_load(&qolb_pauses_), rows[k].pauses);
    }
    return 0;
}

/* A process that may use only one processor counts no pauses, and polls once before it sleeps. Here this is a child. A
 * process that keeps only another thread at one processor counts pauses. */
static int sleeps_at_once(void) {
    qolb_bytes zeros = {{0}};
    qolb_node n[2] = {{0}};
    cpu_set_t set;
    CPU_ZERO(&set);
    CPU_SET(sched_getcpu(), &set);
    atomic_store(&qolb_pauses_, 0);
    WANT(sched_setaffinity(0, sizeof set, &set), 0);
    WANT(qolb_count_pauses_() + atomic_load(&qolb_pauses_), 0);
    WANT(qolb_open(QOLB_DEFAULT, 1, 2, QOLB_NO_LEASE, &zeros, n, 2), QOLB_DONE);
    WANT(qolb_acquire(&n[0]), QOLB_GRANTED);
    begins(NULL);
    WANT(qolb_acquire_within(&n[1], MS), QOLB_TIMEDOUT);
    WANT(looks, 2);
    WANT(sleeps, 1);
    return 0;
}

static int has_one_processor(void) {
    int status;
    pid_t child = fork();
    if (child == 0) exit(sleeps_at_once());
    WANT(waitpid(child, &status, 0), (unsigned long long)child);
    WANT(status, 0);
    return 0;
}

/* ---- With a node ---- */

static qolb_node *holder;

static void releases(void) {
    if (qolb_deqolb(holder) != QOLB_DONE) wrong++;
}

static void shuts(void) {
    if (qolb_shut(holder) != QOLB_DONE) wrong++;
}

/* The node times out, because the first node holds the line. */
static int late(qolb_node *n) {
    /* It times out after 20 ms to the nanosecond, while it waits and while it is busy. While it waits, it polls once,
     * polls for 50 us, polls once more, and sleeps for the rest. While it is busy, it requests again for 20 us, and
     * then every 200 us. */
    for (unsigned busy = 0; busy < 2; busy++) {
        uint64_t since = now;
        begins(NULL);
        WANT(qolb_acquire_within(&n[1], 20 * MS), QOLB_TIMEDOUT);
        WANT(now - since, 20 * MS);
        WANT(sleeps, busy ? 100 : 1);
        WANT(longest, busy ? 200 * US : 20 * MS);
        WANT(asks, busy ? 1 + UNKNOWN + 100 : 1);
        WANT(looks, busy ? 0 : NEAR + 2);
        WANT(yields + spins, 0);
        WANT(qolb_state(&n[1]), QOLB_STATE_ROLLED);
    }
    /* Its timeout is shorter than a nap, or 0. It still makes a request, and polls if it waits. */
    uint64_t since = now;
    WANT(qolb_acquire_within(&n[1], 50 * US), QOLB_TIMEDOUT);
    WANT(now - since, 50 * US);
    for (unsigned k = 1; k < 3; k++) {
        begins(NULL);
        WANT(qolb_acquire_within(&n[k], 0), QOLB_TIMEDOUT);
        WANT(asks, 1);
        WANT(looks, k == 1 ? 0 : 1);
        WANT(yields + sleeps + spins, 0);
        WANT(qolb_state(&n[k]), QOLB_STATE_ROLLED);
    }
    return 0;
}

/* A wait without a timeout reads the clock only around a yield. It sleeps, and if it is woken for no reason it yields
 * and polls again. A release wakes it, by one system call. */
static int sleeps_on(qolb_node *n, int limited) {
    holder = &n[0];
    begins(releases);
    event.at_sleep = 3;
    WANT(limited ? qolb_acquire_within(&n[1], UINT64_MAX) : qolb_acquire(&n[1]), QOLB_GRANTED);
    WANT(clocks, 4);
    WANT(sleeps, 3);
    WANT(longest, NEVER);
    WANT(asks, 1);
    WANT(looks, 2 * (NEAR + 2) + LESS + 2 + 1);
    WANT(yields, 2);
    WANT(spins, 0);
    WANT(wakes, 1);
    WANT(qolb_deqolb(&n[1]), QOLB_DONE);
    WANT(qolb_acquire(&n[0]), QOLB_GRANTED);
    return 0;
}

/* The line is granted while the node sleeps with the longest timeout, while it spins, and while it is busy. */
static int granted(qolb_node *n) {
    holder = &n[0];
    begins(releases);
    event.at_sleep = 1;
    WANT(qolb_acquire_within(&n[1], UINT64_MAX - 1), QOLB_GRANTED);
    WANT(longest, UINT64_MAX - 1);
    WANT(sleeps, 1);
    WANT(wakes, 1);
    holder = &n[1];
    begins(releases);
    event.at_look = 5;
    WANT(qolb_acquire(&n[0]), QOLB_GRANTED);
    WANT(looks, 5);
    WANT(yields + sleeps + wakes, 0);
    WANT(qolb_try(&n[1]), QOLB_BUSY);
    holder = &n[0];
    begins(releases);
    event.at_sleep = 1000;
    WANT(qolb_acquire(&n[1]), QOLB_GRANTED);
    WANT(sleeps, 1000);
    WANT(longest, 200 * US);
    WANT(asks, 1 + UNKNOWN + 1000);
    WANT(yields + spins + looks + wakes + clocks, 0);
    WANT(qolb_deqolb(&n[1]), QOLB_DONE);
    return 0;
}

/* A node that is granted the line at once neither polls nor rests. A try makes one request, and neither polls nor
 * rests. A release without waiters makes no system call. */
static int at_once(qolb_node *n) {
    begins(NULL);
    WANT(qolb_acquire(&n[1]), QOLB_GRANTED);
    WANT(qolb_deqolb(&n[1]), QOLB_DONE);
    WANT(qolb_acquire_within(&n[0], 1), QOLB_GRANTED);
    WANT(asks, 2);
    WANT(qolb_try(&n[1]), QOLB_BUSY);
    WANT(asks, 3);
    WANT(qolb_deqolb(&n[0]), QOLB_DONE);
    WANT(spins + looks + yields + sleeps + names + wakes, 0);
    return 0;
}

/* The timeout expires, but before the withdrawal the line is granted or closed. The node is granted the line, or is
 * told. */
static int at_the_end(qolb_node *n) {
    WANT(qolb_acquire(&n[1]), QOLB_GRANTED);
    holder = &n[1];
    begins(releases);
    event.at = now + MS;
    WANT(qolb_acquire_within(&n[0], MS), QOLB_GRANTED);
    WANT(qolb_state(&n[0]), QOLB_STATE_HOLDING);
    holder = &n[0];
    begins(shuts);
    event.at = now + MS;
    WANT(qolb_acquire_within(&n[1], MS), QOLB_CLOSED);
    WANT(qolb_state(&n[1]), QOLB_STATE_SHUT);
    return 0;
}

static int rests(uint32_t kind) {
    qolb_bytes zeros = {{0}};
    qolb_node n[3] = {{0}};
    WANT(qolb_open(kind, 1, 3, QOLB_NO_LEASE, &zeros, n, 3), QOLB_DONE);
    WANT(qolb_acquire(&n[0]), QOLB_GRANTED);
    if (late(n)) return 1;
    WANT(qolb_deqolb(&n[0]), QOLB_DONE);
    WANT(qolb_acquire(&n[0]), QOLB_GRANTED);
    if (sleeps_on(n, 0) || sleeps_on(n, 1) || granted(n) || at_once(n) || at_the_end(n)) return 1;
    for (int k = 0; k < 3; k++) WANT(qolb_node_free(&n[k]), QOLB_DONE);
    return 0;
}

static int may_all_run(uint64_t nodes) { return nodes <= PROCESSORS; }
static int are_too_many_to_tell(uint64_t nodes) { return nodes > 2 * PROCESSORS; }

/* A spin that ends with a sleep: how often the node pauses or yields, and how often it yields. */
struct rests {
    uint64_t all, yields;
};

static struct rests rests_in(uint64_t length, uint64_t nodes) {
    if (may_all_run(nodes) || are_too_many_to_tell(nodes)) return (struct rests){POLLS(length), 0};
    return (struct rests){FIRST_PAUSES + YIELDS(length), YIELDS(length)};
}

/* Returns the next spin that ends with a sleep. Its length is an eighth more than before, but at most 50 us. On a line
 * with more than twice as many nodes as processors it ends after 20 us. The last yield counts as no more than what is
 * left. Afterwards the length is half of it, but not below `least`. */
static struct rests next_spin(uint64_t *length, uint64_t nodes, uint64_t least) {
    uint64_t grown = *length + *length / 8;
    *length = *length && grown < 50000 ? grown : 50000;
    if (are_too_many_to_tell(nodes) && *length > 20000) *length = 20000;
    struct rests spin = rests_in(*length, nodes);
    uint64_t lasts = (spin.all - spin.yields) * PAUSE + spin.yields * YIELD;
    uint64_t half = (lasts < *length ? lasts : *length) / 2;
    *length = half > least ? half : least;
    return spin;
}

/* Each spin that ends with a sleep makes the next one shorter, down to the least. A spin after a sleep has a length of
 * its own, and a yield before its first pause. */
static int learns(uint32_t kind, uint64_t nodes) {
    enum { MOST = 9 };
    qolb_bytes zeros = {{0}};
    qolb_node n[MOST] = {{0}};
    uint64_t length[2] = {0, 0};
    struct rests first = {0}, woken = {0};
    WANT(qolb_open(kind, 1, nodes, QOLB_NO_LEASE, &zeros, n, nodes), QOLB_DONE);
    WANT(qolb_acquire(&n[0]), QOLB_GRANTED);
    begins(NULL);
    for (unsigned k = 0; k < 20; k++) {
        looks = yields = 0;
        holder = &n[k % 2];
        event.does = releases;
        event.at_sleep = sleeps + 2;
        WANT(qolb_acquire(&n[1 - k % 2]), QOLB_GRANTED);
        first = next_spin(&length[0], nodes, 2000);
        woken = next_spin(&length[1], nodes, 10000);
        WANT(looks, first.all + 2 + woken.all + 2 + 1);
        WANT(yields, first.yields + 1 + woken.yields);
    }
    struct rests least = rests_in(2000, nodes), least_woken = rests_in(10000 * 9 / 8, nodes);
    WANT(first.all >= least.all && first.all <= least.all * 3 / 2, 1);
    WANT(woken.all, least_woken.all);
    WANT(woken.yields, least_woken.yields);
    for (unsigned k = 0; k < 60; k++) {
        holder = &n[k % 2];
        event.does = releases;
        event.at_look = looks + 2;
        WANT(qolb_acquire(&n[1 - k % 2]), QOLB_GRANTED);
    }
    looks = yields = 0;
    WANT(qolb_acquire_within(&n[1], MS), QOLB_TIMEDOUT);
    if (may_all_run(nodes)) WANT(looks, NEAR + 2);
    else if (are_too_many_to_tell(nodes)) WANT(looks, UNKNOWN + 2);
    else WANT(looks, FIRST_PAUSES + YIELDS(50000) + 2);
    WANT(yields, may_all_run(nodes) || are_too_many_to_tell(nodes) ? 0 : YIELDS(50000));
    WANT(qolb_deqolb(&n[0]), QOLB_DONE);
    for (uint64_t k = 0; k < nodes; k++) WANT(qolb_node_free(&n[k]), QOLB_DONE);
    return 0;
}

/* A try finds at its withdrawal that the line is granted, or that it is closed. */
static int withdraws_late(uint32_t kind, int is_shut) {
    qolb_bytes zeros = {{0}};
    qolb_node n[2] = {{0}};
    WANT(qolb_open(kind, 1, 2, QOLB_NO_LEASE, &zeros, n, 2), QOLB_DONE);
    WANT(qolb_acquire(&n[0]), QOLB_GRANTED);
    holder = &n[0];
    begins(is_shut ? shuts : releases);
    event.at_withdrawal = 1;
    WANT(qolb_try(&n[1]), is_shut ? QOLB_CLOSED : QOLB_GRANTED);
    WANT(qolb_state(&n[1]), is_shut ? QOLB_STATE_SHUT : QOLB_STATE_HOLDING);
    if (!is_shut) WANT(qolb_deqolb(&n[1]), QOLB_DONE);
    for (int k = 0; k < 2; k++) WANT(qolb_node_free(&n[k]), QOLB_DONE);
    return 0;
}

/* ---- Wakes by a node that is told that the line is closed, and that therefore passes the line on ---- */

static qolb_node *teller;
static uint32_t (*tells)(qolb_node *node);
static uint32_t was_told;
static uint64_t woke, named;

static uint32_t waits(qolb_node *node) { return qolb_spin(node, 1); }
static uint32_t acquires(qolb_node *node) { return qolb_acquire(node); }
static uint32_t acquires_within(qolb_node *node) { return qolb_acquire_within(node, MS); }

/* Makes the teller's call while one node sleeps. Before the call, the line may be shut. */
static void is_told(void) {
    if (holder) shuts();
    uint64_t woken = wakes, asked = names;
    was_told = tells(teller);
    woke = wakes - woken;
    named = names - asked;
}

/* The second node is before one that sleeps. It polls, withdraws or links only after the line was shut. */
static int passes_on(uint32_t kind, uint32_t (*call)(qolb_node *node), int links) {
    qolb_bytes zeros = {{0}};
    qolb_node n[3] = {{0}};
    WANT(qolb_open(kind, 1, 3, QOLB_NO_LEASE, &zeros, n, 3), QOLB_DONE);
    WANT(qolb_acquire(&n[0]), QOLB_GRANTED);
    WANT(links ? qolb_prepend(&n[1]) : qolb_enqolb(&n[1]), links ? QOLB_LINKING : QOLB_QUEUED);
    holder = &n[0];
    teller = &n[1];
    tells = call;
    begins(is_told);
    event.at_sleep = 1;
    WANT(qolb_acquire(&n[2]), QOLB_CLOSED);
    WANT(was_told, QOLB_CLOSED);
    WANT(woke, 1);
    for (int k = 0; k < 3; k++) WANT(qolb_node_free(&n[k]), QOLB_DONE);
    return 0;
}

/* A request on a closed line is told at once, and may have passed the line on to a sleeper behind it. Here no node of
 * the line waits, and a sleeper of another line is not woken: the call does not even ask for the next holder. */
static int asks_a_closed_one(uint32_t kind, uint32_t (*call)(qolb_node *node)) {
    qolb_bytes zeros = {{0}};
    qolb_node n[2] = {{0}}, closed = {0};
    WANT(qolb_open(kind, 1, 2, QOLB_NO_LEASE, &zeros, n, 2), QOLB_DONE);
    WANT(qolb_open(kind, 1, 1, QOLB_NO_LEASE, &zeros, &closed, 1), QOLB_DONE);
    WANT(qolb_acquire(&closed), QOLB_GRANTED);
    WANT(qolb_shut(&closed), QOLB_DONE);
    WANT(qolb_acquire(&n[0]), QOLB_GRANTED);
    holder = NULL;
    teller = &closed;
    tells = call;
    begins(is_told);
    event.at_sleep = 1;
    WANT(qolb_acquire_within(&n[1], MS), QOLB_TIMEDOUT);
    WANT(was_told, QOLB_CLOSED);
    WANT(named, 0);
    WANT(woke, 0);
    WANT(qolb_deqolb(&n[0]), QOLB_DONE);
    for (int k = 0; k < 2; k++) WANT(qolb_node_free(&n[k]), QOLB_DONE);
    WANT(qolb_node_free(&closed), QOLB_DONE);
    return 0;
}

static qolb_node *other;

static void shuts_other(void) {
    if (qolb_shut(other) != QOLB_DONE) wrong++;
}

/* The line is closed when the node's timeout expires, or while the node is busy. */
static uint32_t is_told_as_it_gives_up(qolb_node *node) {
    event.does = shuts_other;
    event.at_withdrawal = 1;
    return qolb_acquire_within(node, MS);
}

static uint32_t is_told_after_being_busy(qolb_node *node) {
    if (qolb_try(node) != QOLB_BUSY) wrong++;
    event.does = shuts_other;
    event.at_ask = asks + 3;
    return qolb_acquire(node);
}

static void is_not_called(void *unused) {
    (void)unused;
    wrong++;
}

/* A node that is told late of the shut line looks for the next holder, as the node that shut it did. A third node
 * counts as a waiter, because it has left a requested notification behind. `probes` is the number of probes that the
 * call passes while its node does not wait. */
static int is_told_late(uint32_t kind, uint32_t (*call)(qolb_node *node), unsigned probes) {
    qolb_bytes zeros = {{0}};
    qolb_node n[3] = {{0}};
    WANT(qolb_open(kind, 1, 3, QOLB_NO_LEASE, &zeros, n, 3), QOLB_DONE);
    WANT(qolb_acquire(&n[0]), QOLB_GRANTED);
    WANT(qolb_enqolb(&n[2]), QOLB_QUEUED);
    WANT(qolb_notify(&n[2], is_not_called, NULL), QOLB_WAITING);
    WANT(qolb_withdraw(&n[2]), QOLB_WITHDRAWN);
    other = &n[0];
    begins(NULL);
    WANT(call(&n[1]), QOLB_CLOSED);
    WANT(names, 2 + probes * BY_PROBE);
    for (int k = 0; k < 3; k++) WANT(qolb_node_free(&n[k]), QOLB_DONE);
    return 0;
}

/* A misuse, with an empty handle or with a node that does not hold the line, releases nothing and wakes no thread. */
static int misuse_wakes_nobody(uint32_t kind, uint32_t (*call)(qolb_node *node)) {
    qolb_bytes zeros = {{0}};
    qolb_node n[3] = {{0}}, empty = {0};
    WANT(qolb_open(kind, 1, 3, QOLB_NO_LEASE, &zeros, n, 3), QOLB_DONE);
    WANT(qolb_acquire(&n[2]), QOLB_GRANTED);
    WANT(qolb_deqolb(&n[2]), QOLB_DONE);
    WANT(qolb_acquire(&n[0]), QOLB_GRANTED);
    holder = NULL;
    tells = call;
    for (int k = 0; k < 2; k++) {
        teller = k ? &n[2] : &empty;
        begins(is_told);
        event.at_sleep = 1;
        WANT(qolb_acquire_within(&n[1], MS), QOLB_TIMEDOUT);
        WANT(was_told, QOLB_MISUSE);
        WANT(woke, 0);
        if (!k) WANT(qolb_deqolb(&n[0]), QOLB_DONE);
        if (!k) WANT(qolb_acquire(&n[0]), QOLB_GRANTED);
    }
    WANT(qolb_deqolb(&n[0]), QOLB_DONE);
    for (int k = 0; k < 3; k++) WANT(qolb_node_free(&n[k]), QOLB_DONE);
    return 0;
}

static int each_passes_on(uint32_t kind) {
    if (passes_on(kind, qolb_poll, 0) || passes_on(kind, waits, 0) || passes_on(kind, qolb_withdraw, 0)) return 1;
    if (misuse_wakes_nobody(kind, qolb_deqolb) || misuse_wakes_nobody(kind, qolb_shut)) return 1;
    if (asks_a_closed_one(kind, qolb_enqolb) || asks_a_closed_one(kind, acquires) ||
        asks_a_closed_one(kind, acquires_within))
        return 1;
    if (is_told_late(kind, is_told_as_it_gives_up, 1) || is_told_late(kind, is_told_after_being_busy, 2)) return 1;
    return kind == QOLB_LINK && (passes_on(kind, qolb_link, 1) || asks_a_closed_one(kind, qolb_prepend));
}

/* ---- A release wakes the next holder, and the waiter behind it ---- */

enum { SLEEPERS = 3 };
static qolb_node *nodes;
static uint32_t (*waits_as)(unsigned k);
static void (*lets_go)(void);

/* The first node waits without a timeout. The others time out, because their sleeps end while it sleeps. */
static uint32_t acquires_as(unsigned k) {
    return k ? qolb_acquire_within(&nodes[k], 20 * MS) : qolb_acquire(&nodes[0]);
}

/* While one node sleeps, the next one waits and sleeps, too. While the last one sleeps, the line is released. */
static void next_sleeps(void) {
    unsigned k = (unsigned)sleeps;
    if (k == SLEEPERS) {
        lets_go();
        return;
    }
    event.does = next_sleeps;
    event.at_sleep = k + 1;
    if (waits_as(k) != QOLB_TIMEDOUT) wrong++;
}

/* Three nodes sleep, each at a word of its own. This number of them is woken, in their order. */
static int wakes_so_many(uint32_t (*as)(unsigned k), void (*by)(void), unsigned many, uint32_t then) {
    waits_as = as;
    lets_go = by;
    begins(next_sleeps);
    event.at_sleep = 1;
    WANT(as(0), then);
    WANT(slept_at[0] != slept_at[1] && slept_at[1] != slept_at[2] && slept_at[2] != slept_at[0], 1);
    WANT(wakes, many);
    for (unsigned k = 0; k < many; k++) WANT(woken_at[k] == slept_at[k], 1);
    return 0;
}

/* A release wakes two, also if it passes a withdrawn request. */
static int wakes_two(uint32_t kind, int passes) {
    qolb_bytes zeros = {{0}};
    qolb_node n[2 + SLEEPERS] = {{0}};
    WANT(qolb_open(kind, 1, 2 + SLEEPERS, QOLB_NO_LEASE, &zeros, n, 2 + SLEEPERS), QOLB_DONE);
    WANT(qolb_acquire(&n[0]), QOLB_GRANTED);
    if (passes) WANT(qolb_try(&n[1]), QOLB_BUSY);
    holder = &n[0];
    nodes = &n[2];
    if (wakes_so_many(acquires_as, releases, 2, QOLB_GRANTED)) return 1;
    WANT(qolb_deqolb(&n[2]), QOLB_DONE);
    for (int k = 0; k < 2 + SLEEPERS; k++) WANT(qolb_node_free(&n[k]), QOLB_DONE);
    return 0;
}

static void shuts_and_is_told(void) {
    shuts();
    wakes = 0;
    if (qolb_poll(other) != QOLB_CLOSED) wrong++;
}

/* So does a node that closes the line, and so does the next node, which is awake and passes the closed line on. */
static int closing_wakes_two(uint32_t kind, int passes_on) {
    qolb_bytes zeros = {{0}};
    qolb_node n[2 + SLEEPERS] = {{0}};
    WANT(qolb_open(kind, 1, 2 + SLEEPERS, QOLB_NO_LEASE, &zeros, n, 2 + SLEEPERS), QOLB_DONE);
    WANT(qolb_acquire(&n[0]), QOLB_GRANTED);
    if (passes_on) WANT(qolb_enqolb(&n[1]), QOLB_QUEUED);
    holder = &n[0];
    other = &n[1];
    nodes = &n[2];
    if (wakes_so_many(acquires_as, passes_on ? shuts_and_is_told : shuts, 2, QOLB_CLOSED)) return 1;
    for (int k = 0; k < 2 + SLEEPERS; k++) WANT(qolb_node_free(&n[k]), QOLB_DONE);
    return 0;
}

/* If the next holder is awake, although it has slept at its place before, only the waiter behind it is woken. */
static int wakes_behind_one_awake(uint32_t kind) {
    qolb_bytes zeros = {{0}};
    qolb_node n[3] = {{0}};
    WANT(qolb_open(kind, 1, 3, QOLB_NO_LEASE, &zeros, n, 3), QOLB_DONE);
    WANT(qolb_acquire(&n[0]), QOLB_GRANTED);
    WANT(qolb_acquire_within(&n[1], MS), QOLB_TIMEDOUT);
    WANT(qolb_deqolb(&n[0]), QOLB_DONE);
    WANT(qolb_acquire(&n[0]), QOLB_GRANTED);
    WANT(qolb_enqolb(&n[1]), QOLB_QUEUED);
    holder = &n[0];
    begins(releases);
    event.at_sleep = 1;
    WANT(qolb_acquire_within(&n[2], MS), QOLB_TIMEDOUT);
    WANT(wakes, 1);
    WANT(woken_at[0] == slept_at[0], 1);
    WANT(qolb_poll(&n[1]), QOLB_GRANTED);
    WANT(qolb_deqolb(&n[1]), QOLB_DONE);
    for (int k = 0; k < 3; k++) WANT(qolb_node_free(&n[k]), QOLB_DONE);
    return 0;
}

/* No two waiting nodes of a line sleep at the same word, for any number of nodes. Neither do nodes of two lines. */
static int each_has_its_place(uint32_t kind) {
    enum { MOST = 200 };
    qolb_bytes zeros = {{0}};
    static qolb_node n[MOST], next[2];
    static const void *places[MOST];
    WANT(qolb_open(kind, 1, MOST, QOLB_NO_LEASE, &zeros, n, MOST), QOLB_DONE);
    WANT(qolb_open(kind, 1, 2, QOLB_NO_LEASE, &zeros, next, 2), QOLB_DONE);
    WANT(qolb_acquire(&n[0]), QOLB_GRANTED);
    WANT(qolb_acquire(&next[0]), QOLB_GRANTED);
    for (int k = 1; k < MOST; k++) {
        begins(NULL);
        WANT(qolb_acquire_within(&n[k], MS), QOLB_TIMEDOUT);
        places[k] = slept_at[0];
        for (int j = 1; j < k; j++) WANT(places[j] != places[k], 1);
    }
    begins(NULL);
    WANT(qolb_acquire_within(&next[1], MS), QOLB_TIMEDOUT);
    WANT(slept_at[0] != places[1], 1);
    WANT(qolb_deqolb(&n[0]) + qolb_deqolb(&next[0]), QOLB_DONE);
    for (int k = 0; k < MOST; k++) WANT(qolb_node_free(&n[k]), QOLB_DONE);
    for (int k = 0; k < 2; k++) WANT(qolb_node_free(&next[k]), QOLB_DONE);
    return 0;
}

static int wakes_whom_it_should(uint32_t kind) {
    if (wakes_two(kind, 0) || wakes_two(kind, 1) || closing_wakes_two(kind, 0) || closing_wakes_two(kind, 1)) return 1;
    return wakes_behind_one_awake(kind) || each_has_its_place(kind);
}

/* ---- A node that is woken without a grant uses the rest of its time ---- */

static void time_passes(void) { now += 5 * MS; }

static int has_what_is_left(uint64_t since) {
    WANT(now - since, 20 * MS);
    WANT(sleeps, 2);
    WANT(longest, 20 * MS);
    return 0;
}

static int woken_for_nothing(uint32_t kind) {
    qolb_bytes zeros = {{0}};
    qolb_node n[2] = {{0}};
    WANT(qolb_open(kind, 1, 2, QOLB_NO_LEASE, &zeros, n, 2), QOLB_DONE);
    WANT(qolb_acquire(&n[0]), QOLB_GRANTED);
    uint64_t since = now;
    begins(time_passes);
    event.at_sleep = 1;
    WANT(qolb_acquire_within(&n[1], 20 * MS), QOLB_TIMEDOUT);
    if (has_what_is_left(since)) return 1;
    WANT(qolb_deqolb(&n[0]), QOLB_DONE);
    for (int k = 0; k < 2; k++) WANT(qolb_node_free(&n[k]), QOLB_DONE);
    return 0;
}

int main(void) {
    alarm(60); /* a thread that never looks at the clock, or never rests, does not end */
    now = 5000000000;
    if (counts_pauses() || has_one_processor()) return 1;
    atomic_store(&qolb_pauses_, 80); /* it is set because there may be one processor */
    atomic_store(&qolb_processors_, PROCESSORS);
    for (uint32_t kind = 0; kind < QOLB_KINDS; kind++)
        if (rests(kind) || learns(kind, 2) || learns(kind, 4) || learns(kind, 5) || learns(kind, 8) ||
            learns(kind, 9) || withdraws_late(kind, 0) || withdraws_late(kind, 1) || each_passes_on(kind) ||
            wakes_whom_it_should(kind) || woken_for_nothing(kind))
            return 1;
    WANT(wrong, 0);
    return 0;
}
