/* Tests the proved core of a lock (src/core.h), strict and
 * barging.
 *
 * In the first part many threads use one lock. The sums must be exact, no two threads may hold the lock at once, and
 * tickets must have their turns in order. Barging threads may overtake the queue only as often as the bound allows. No
 * thread may get the lock while it is shut. A thread that sleeps on the announced address and value must be woken.
 *
 * The second part has one thread. Every call that the ticket's
 * state does not allow must return MISUSE and change nothing,
 * and a core must lie in the memory in which it is opened.
 *
 *   build/core_c [ROUNDS [THREADS]]       400 rounds with 2 threads; with up to 64 threads, as many in total */
#define _GNU_SOURCE
#include "../src/core.h"
#include "../src/heap.h"
#include <linux/futex.h>
#include <pthread.h>
#include <sched.h>
#include <stdatomic.h>
#include <stdio.h>
#include <stdlib.h>
#include <string.h>
#include <sys/syscall.h>
#include <unistd.h>

#define CHECK(it)                                                           \
    do {                                                                    \
        if (!(it)) printf("line %d: not so: %s\n", __LINE__, #it), abort(); \
    } while (0)

/* Tells the thread sanitizer what the proved steps order, because it does not see them. */
#ifdef __SANITIZE_THREAD__
void __tsan_acquire(void *at);
void __tsan_release(void *at);
#else
#define __tsan_acquire(at) ((void)(at))
#define __tsan_release(at) ((void)(at))
#endif

enum { MOST_THREADS = 64, MOST_LOCKS = 256, NEAR = 15, FEW_LOOKS = 4 };

static uint64_t labels; /* each lock has a label of its own */

/* Opens a core in memory of its own, because a core on the heap is never freed. */
static struct qolb_core opened(uint64_t barging) {
    static _Alignas(128) struct { char words[256], slots[128], block[128]; } rooms[MOST_LOCKS];
    static int used;
    struct qolb_core core;
    CHECK(used < MOST_LOCKS);
    struct core_arena arena = {{rooms[used].words, rooms[used].slots, rooms[used].block}, 0};
    qolb_core_arena_ = &arena;
    used++;
    CHECK(qolb_core_open_proved_(barging, ++labels, &core) == QOLB_DONE);
    qolb_core_arena_ = NULL;
    return core;
}

/* ---- Many threads ---- */

/* What the threads of a scene do, as bits. */
enum { TRIES = 1, NEARS = 2, WITHDRAWS = 4, SLEEPS = 8, SHUTS = 16 };

static struct scene {
    struct qolb_core core;
    uint64_t barging;
    int does;
    long rounds;
    /* These are protected by the lock. */
    long shared, newcomers, most_newcomers;
    int64_t last_number;
    int is_shut;
    /* Sums of all threads. */
    _Atomic long turns, withdrawn, by_outer, slept, head_slept, tried, far, drawn_by_another, shut, told_shut, reopened;
    _Atomic int in_service;
} scene;

struct caller {
    struct qolb_ticket ticket;
    uint64_t seed;
};

static uint64_t draw(struct caller *caller, uint64_t below) {
    caller->seed += 0x9e3779b97f4a7c15;
    uint64_t z = caller->seed;
    z = (z ^ z >> 30) * 0xbf58476d1ce4e5b9;
    z = (z ^ z >> 27) * 0x94d049bb133111eb;
    return (z ^ z >> 31) % below;
}

static int does(struct caller *caller, int what) { return (scene.does & what) && draw(caller, 4) == 0; }

static void sleep_at(uint32_t *at, uint32_t value) { syscall(SYS_futex, at, FUTEX_WAIT_PRIVATE, value, NULL, NULL, 0); }
static void wake_at(uint32_t *at) { syscall(SYS_futex, at, FUTEX_WAKE_PRIVATE, 0x7fffffff, NULL, NULL, 0); }

static int is_barging(void) { return scene.barging > 1; }

/* Checks an acquisition: nobody else is served, and the order and the bound are kept. */
static void is_served(struct caller *caller, int is_head) {
    __tsan_acquire(&scene);
    CHECK(!atomic_exchange(&scene.in_service, 1));
    CHECK(!scene.is_shut);
    scene.shared++;
    if (is_head) {
        CHECK((int64_t)caller->ticket.number > scene.last_number);
        scene.last_number = (int64_t)caller->ticket.number;
        scene.newcomers = 0;
    } else {
        scene.newcomers++;
        if (scene.newcomers > scene.most_newcomers) scene.most_newcomers = scene.newcomers;
        CHECK(scene.newcomers < (long)scene.barging);
    }
    if (does(caller, SHUTS)) {
        CHECK(qolb_core_shut_proved_(&scene.core, &caller->ticket) == QOLB_DONE);
        scene.is_shut = 1;
        scene.shut++;
    }
    if (draw(caller, 8) == 0) sched_yield(); /* so that other threads wait */
    atomic_store(&scene.in_service, 0);
    __tsan_release(&scene);
    scene.turns++;
}

/* Is told that the lock is shut, and opens it again, unless tickets were drawn after this one. */
static void is_told_shut(struct caller *caller) {
    __tsan_acquire(&scene);
    CHECK(scene.is_shut);
    scene.newcomers = 0;
    scene.told_shut++;
    uint32_t got = qolb_core_reopen_proved_(&scene.core, &caller->ticket);
    CHECK(got == QOLB_GRANTED || got == QOLB_BUSY);
    if (got == QOLB_GRANTED) scene.is_shut = 0, scene.reopened++;
    __tsan_release(&scene);
}

static void pass_on(struct caller *caller) {
    uint32_t got;
    while ((got = qolb_core_release_proved_(&scene.core, &caller->ticket)) == QOLB_UNFINISHED_) continue;
    CHECK(got == QOLB_DONE);
    if (caller->ticket.sleepers) wake_at(qolb_core_cell_(&scene.core, caller->ticket.number + 1));
}

static void leave(struct caller *caller) {
    while (qolb_core_leave_lock_word_proved_(&scene.core, &caller->ticket) != QOLB_DONE)
        CHECK(caller->ticket.state == QOLB_TICKET_INSIDE_ || caller->ticket.state == QOLB_TICKET_INSIDE_SHUT_);
    if (caller->ticket.head_sleeps) wake_at(qolb_core_outer_(&scene.core));
}

/* Goes on at a turn of a strict lock. */
static void strict_turn(struct caller *caller) {
    if (qolb_core_check_open_proved_(&scene.core, &caller->ticket) == QOLB_GRANTED) is_served(caller, 1);
    else is_told_shut(caller);
    pass_on(caller);
}

/* Goes on as the queue head of a barging lock. */
static void head_turn(struct caller *caller) {
    uint32_t got;
    for (int looks = 0; (got = qolb_core_take_lock_word_proved_(&scene.core, &caller->ticket)) == QOLB_WAITING;
         looks++) {
        if (looks == FEW_LOOKS)
            while (qolb_core_request_handoff_proved_(&scene.core, &caller->ticket) == QOLB_BUSY) continue;
        if (looks <= FEW_LOOKS) sched_yield();
        else if (qolb_core_announce_head_sleep_proved_(&scene.core, &caller->ticket) == QOLB_ASLEEP_) {
            scene.head_slept++;
            sleep_at(qolb_core_outer_(&scene.core), (uint32_t)caller->ticket.lock_word);
        }
    }
    CHECK(got == QOLB_GRANTED || got == QOLB_CLOSED);
    if (got == QOLB_CLOSED) is_told_shut(caller);
    pass_on(caller);
    if (got == QOLB_GRANTED) is_served(caller, 1);
    leave(caller);
}

/* Waits with a ticket. Returns whether it is then at its turn, and not withdrawn. */
static int waits(struct caller *caller) {
    struct qolb_ticket *ticket = &caller->ticket;
    uint32_t got = QOLB_WAITING;
    for (int looks = 0; got == QOLB_WAITING; looks++) {
        if (does(caller, WITHDRAWS) && ticket->rounds <= NEAR) {
            got = qolb_core_withdraw_proved_(&scene.core, ticket);
            CHECK(got == QOLB_WITHDRAWN || got == QOLB_GRANTED);
        } else if (looks >= FEW_LOOKS || does(caller, SLEEPS)) {
            got = qolb_core_announce_sleep_proved_(&scene.core, ticket);
            if (got == QOLB_ASLEEP_) {
                scene.slept++;
                sleep_at(qolb_core_cell_(&scene.core, ticket->number), (uint32_t)(ticket->word >> 32));
                got = qolb_core_retract_sleep_proved_(&scene.core, ticket);
            }
        } else {
            sched_yield();
            got = qolb_core_poll_proved_(&scene.core, ticket);
        }
    }
    if (got == QOLB_WITHDRAWN) scene.withdrawn++;
    return got == QOLB_GRANTED;
}

/* Draws a ticket, and returns whether it has drawn one. */
static int asks(struct caller *caller) {
    if (does(caller, TRIES)) {
        scene.tried++;
        return qolb_core_try_draw_proved_(&scene.core, &caller->ticket) == QOLB_GRANTED;
    }
    if (!does(caller, NEARS)) return qolb_core_draw_proved_(&scene.core, &caller->ticket) != QOLB_MISUSE;
    uint32_t got = qolb_core_draw_near_proved_(&scene.core, &caller->ticket);
    if (got == QOLB_FAR_) scene.far++;
    if (got == QOLB_BUSY) scene.drawn_by_another++;
    return got == QOLB_GRANTED || got == QOLB_WAITING;
}

static int goes_in(struct caller *caller) {
    uint32_t got = qolb_core_barge_proved_(&scene.core, &caller->ticket);
    if (got == QOLB_BUSY) got = qolb_core_barge_proved_(&scene.core, &caller->ticket);
    return got == QOLB_GRANTED;
}

static pthread_barrier_t all_there;

static void *calls(void *of) {
    struct caller *caller = of;
    pthread_barrier_wait(&all_there);
    for (long k = 0; k < scene.rounds; k++) {
        if (is_barging() && goes_in(caller)) {
            is_served(caller, 0);
            leave(caller);
            scene.by_outer++;
        } else if (asks(caller) && (caller->ticket.state == QOLB_TICKET_AT_TURN_ || waits(caller))) {
            if (is_barging()) head_turn(caller);
            else strict_turn(caller);
        }
        CHECK(caller->ticket.state == QOLB_TICKET_FREE_);
    }
    return NULL;
}

/* What is counted over all scenes: what each run must have, what depends on luck, and the longest row. */
static const char *const counted[] = {"turns",           "by the lock word",       "tried", "shut", "withdrawn",
                                      "slept",           "slept at the lock word", "far",   "told", "reopened",
                                      "drawn by another"};
enum { COUNTS = sizeof counted / sizeof counted[0], CERTAIN = 4 };
static long sums[COUNTS + 1];

static void plays(int threads, uint64_t barging, int does_what, long rounds) {
    static struct caller callers[MOST_THREADS];
    pthread_t thread[MOST_THREADS];
    memset(&scene, 0, sizeof scene);
    memset(callers, 0, sizeof callers);
    scene.core = opened(barging);
    scene.barging = barging;
    scene.does = does_what;
    scene.rounds = rounds;
    scene.last_number = -1;
    pthread_barrier_init(&all_there, NULL, (unsigned)threads);
    for (int k = 0; k < threads; k++) {
        callers[k].seed = (uint64_t)k + 1;
        CHECK(!pthread_create(&thread[k], NULL, calls, &callers[k]));
    }
    for (int k = 0; k < threads; k++) pthread_join(thread[k], NULL);
    __tsan_acquire(&scene);
    CHECK(scene.shared == scene.turns);
    CHECK(scene.reopened + scene.is_shut == scene.shut);
    long counts[] = {scene.turns,     scene.by_outer, scene.tried,           scene.shut,
                     scene.withdrawn, scene.slept,    scene.head_slept,      scene.far,
                     scene.told_shut, scene.reopened, scene.drawn_by_another};
    for (int k = 0; k < COUNTS; k++) sums[k] += counts[k];
    if (scene.most_newcomers > sums[COUNTS]) sums[COUNTS] = scene.most_newcomers;
}

/* ---- One thread: misuse ---- */

typedef uint32_t call(const struct qolb_core *core, struct qolb_ticket *ticket);

static const struct {
    const char *name;
    call *call;
    int allowed; /* the states that allow the call, as bits */
    uint64_t least_barging, most_barging;
} every[] = {
#define FREE (1 << QOLB_TICKET_FREE_)
#define WAITING (1 << QOLB_TICKET_WAITING_)
#define AT_TURN (1 << QOLB_TICKET_AT_TURN_)
#define TURNS (AT_TURN | 1 << QOLB_TICKET_SERVED_ | 1 << QOLB_TICKET_SERVED_SHUT_)
#define HEADS (1 << QOLB_TICKET_HEAD_INSIDE_ | 1 << QOLB_TICKET_HEAD_INSIDE_SHUT_)
    {"draw", qolb_core_draw_proved_, FREE, 0, 9},
    {"draw_and_check", qolb_core_draw_and_check_proved_, FREE, 0, 1},
    {"draw_near", qolb_core_draw_near_proved_, FREE, 0, 9},
    {"try_draw", qolb_core_try_draw_proved_, FREE, 0, 9},
    {"poll", qolb_core_poll_proved_, WAITING, 0, 9},
    {"announce_sleep", qolb_core_announce_sleep_proved_, WAITING, 0, 9},
    {"retract_sleep", qolb_core_retract_sleep_proved_, 1 << QOLB_TICKET_ASLEEP_, 0, 9},
    {"withdraw", qolb_core_withdraw_proved_, WAITING, 0, 9},
    {"release", qolb_core_release_proved_, TURNS | 1 << QOLB_TICKET_ENDING_ | HEADS, 0, 9},
    {"check_open", qolb_core_check_open_proved_, TURNS, 0, 1},
    {"barge", qolb_core_barge_proved_, FREE, 2, 9},
    {"take_lock_word", qolb_core_take_lock_word_proved_, AT_TURN, 2, 9},
    {"leave_lock_word", qolb_core_leave_lock_word_proved_, 1 << QOLB_TICKET_INSIDE_ | 1 << QOLB_TICKET_INSIDE_SHUT_, 0,
     9},
    {"request_handoff", qolb_core_request_handoff_proved_, AT_TURN, 0, 9},
    {"announce_head_sleep", qolb_core_announce_head_sleep_proved_, AT_TURN, 0, 9},
    {"shut", qolb_core_shut_proved_,
     1 << QOLB_TICKET_SERVED_ | 1 << QOLB_TICKET_HEAD_INSIDE_ | 1 << QOLB_TICKET_INSIDE_, 0, 9},
    {"reopen", qolb_core_reopen_proved_, 1 << QOLB_TICKET_SERVED_SHUT_ | 1 << QOLB_TICKET_HEAD_INSIDE_SHUT_, 0, 9},
};
enum { CALLS = sizeof every / sizeof every[0], WORDS = 21 };

static long misused;

/* Checks that the call is misuse, and that neither the ticket nor a word of the lock changes. */
static void is_misuse(const struct qolb_core *core, struct qolb_ticket *ticket, int k) {
    struct qolb_ticket was = *ticket;
    uint64_t words[WORDS];
    memcpy(words, qolb_core_words_(core), sizeof words);
    if (every[k].call(core, ticket) != QOLB_MISUSE)
        printf("%s in state %u: allowed\n", every[k].name, was.state), abort();
    CHECK(!memcmp(&was, ticket, sizeof was));
    CHECK(!memcmp(words, qolb_core_words_(core), sizeof words));
    misused++;
}

/* Makes, with a ticket in this state, each call that the state or the lock does not allow, and each call for another
 * lock. */
static void misuses(const struct qolb_core *core, uint64_t barging, struct qolb_ticket *ticket, uint32_t state) {
    struct qolb_core other = opened(barging);
    CHECK(ticket->state == state);
    for (int k = 0; k < CALLS; k++) {
        int fits = barging >= every[k].least_barging && barging <= every[k].most_barging;
        if (!fits || !(every[k].allowed >> state & 1)) is_misuse(core, ticket, k);
        if (state != QOLB_TICKET_FREE_) is_misuse(&other, ticket, k);
    }
}

static void all_misuse(uint64_t barging) {
    struct qolb_core core = opened(barging);
    struct qolb_ticket a, b, c;
    memset(&a, 0, sizeof a), memset(&b, 0, sizeof b), memset(&c, 0, sizeof c);
    misuses(&core, barging, &a, QOLB_TICKET_FREE_);
    CHECK(qolb_core_draw_proved_(&core, &a) == QOLB_GRANTED);
    misuses(&core, barging, &a, QOLB_TICKET_AT_TURN_);
    CHECK(qolb_core_draw_proved_(&core, &b) == QOLB_WAITING);
    misuses(&core, barging, &b, QOLB_TICKET_WAITING_);
    CHECK(qolb_core_announce_sleep_proved_(&core, &b) == QOLB_ASLEEP_);
    misuses(&core, barging, &b, QOLB_TICKET_ASLEEP_);
    CHECK(qolb_core_retract_sleep_proved_(&core, &b) == QOLB_WAITING);
    call *serve = barging > 1 ? qolb_core_take_lock_word_proved_ : qolb_core_check_open_proved_;
    CHECK(serve(&core, &a) == QOLB_GRANTED);
    misuses(&core, barging, &a, barging > 1 ? QOLB_TICKET_HEAD_INSIDE_ : QOLB_TICKET_SERVED_);
    if (barging > 1) {
        CHECK(qolb_core_release_proved_(&core, &a) == QOLB_DONE);
        misuses(&core, barging, &a, QOLB_TICKET_INSIDE_);
        CHECK(qolb_core_shut_proved_(&core, &a) == QOLB_DONE);
        misuses(&core, barging, &a, QOLB_TICKET_INSIDE_SHUT_);
        CHECK(qolb_core_leave_lock_word_proved_(&core, &a) == QOLB_DONE);
    } else {
        CHECK(qolb_core_shut_proved_(&core, &a) == QOLB_DONE);
        misuses(&core, barging, &a, QOLB_TICKET_SERVED_SHUT_);
        CHECK(qolb_core_release_proved_(&core, &a) == QOLB_DONE);
    }
    misuses(&core, barging, &a, QOLB_TICKET_FREE_);
    CHECK(qolb_core_poll_proved_(&core, &b) == QOLB_GRANTED && serve(&core, &b) == QOLB_CLOSED);
    misuses(&core, barging, &b, barging > 1 ? QOLB_TICKET_HEAD_INSIDE_SHUT_ : QOLB_TICKET_SERVED_SHUT_);
    CHECK(qolb_core_reopen_proved_(&core, &b) == QOLB_GRANTED && qolb_core_release_proved_(&core, &b) == QOLB_DONE);
    if (barging > 1) CHECK(qolb_core_leave_lock_word_proved_(&core, &b) == QOLB_DONE);
    /* A free ticket may be used for another lock. */
    struct qolb_core other = opened(barging);
    CHECK(qolb_core_draw_proved_(&other, &b) == QOLB_GRANTED && qolb_core_release_proved_(&other, &b) == QOLB_DONE);
    CHECK(qolb_core_try_draw_proved_(&core, &c) == QOLB_GRANTED && qolb_core_release_proved_(&core, &c) == QOLB_DONE);
}

/* ---- One thread: opening ---- */

static void opens(void) {
    struct qolb_core core = {&labels};
    CHECK(qolb_core_open_proved_(65536, 1, &core) == QOLB_BAD_NODES && core.at == &labels);
    CHECK(qolb_core_open_proved_(1, 0, &core) == QOLB_MISUSE && core.at == &labels);
    /* The blocks lie in the prepared memory, and a later opening uses the heap again. */
    static _Alignas(128) char words[256], slots[64], block[128];
    struct qolb_ticket ticket;
    memset(&ticket, 0, sizeof ticket);
    for (int again = 0; again < 2; again++) {
        struct core_arena arena = {{words, slots, block}, 0};
        qolb_core_arena_ = &arena;
        CHECK(qolb_core_open_proved_(4, ++labels, &core) == QOLB_DONE);
        CHECK(arena.taken == CORE_BLOCKS);
        qolb_core_arena_ = NULL;
        CHECK(core.at == (void *)block && qolb_core_words_(&core) == (void *)words);
        /* The second time, the ticket belongs to the lock that was there before. */
        CHECK(qolb_core_draw_proved_(&core, &ticket) == QOLB_GRANTED && ticket.number == 0);
        CHECK(qolb_core_take_lock_word_proved_(&core, &ticket) == QOLB_GRANTED);
        CHECK(qolb_core_release_proved_(&core, &ticket) == QOLB_DONE);
        CHECK(qolb_core_leave_lock_word_proved_(&core, &ticket) == QOLB_DONE);
    }
    static struct qolb_core on_heap;
    CHECK(qolb_core_open_proved_(4, ++labels, &on_heap) == QOLB_DONE);
    CHECK(on_heap.at != (void *)block && qolb_core_words_(&on_heap) != (void *)words);
    /* The tail and the cells are in one cache line. */
    CHECK((uintptr_t)(qolb_core_words_(&on_heap) + 16) / 64 == (uintptr_t)(qolb_core_words_(&on_heap) + 20) / 64);
}

int main(int argc, char **argv) {
    long rounds = argc > 1 ? atol(argv[1]) : 400;
    int most = argc > 2 ? atoi(argv[2]) : MOST_THREADS;
    alarm(600);
    opens();
    all_misuse(1);
    all_misuse(4);
    printf("%ld calls that are misuse\n", misused);
    static const uint64_t bounds[] = {1, 2, 16, 64};
    static const int mixes[] = {0, TRIES | NEARS | WITHDRAWS, SLEEPS, SHUTS,
                                TRIES | NEARS | WITHDRAWS | SLEEPS | SHUTS};
    for (int threads = 2; threads <= most; threads *= threads < 4 ? 2 : 4)
        for (unsigned b = 0; b < sizeof bounds / sizeof bounds[0]; b++)
            for (unsigned m = 0; m < sizeof mixes / sizeof mixes[0]; m++)
                plays(threads, bounds[b], mixes[m], 2 * rounds / threads);
    for (int k = 0; k < COUNTS; k++) {
        printf("%ld %s, ", sums[k], counted[k]);
        CHECK(sums[k] > 0 || k >= CERTAIN);
    }
    printf("at most %ld newcomers in a row\n", sums[COUNTS]);
    return 0;
}
