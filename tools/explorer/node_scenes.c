/* The actions of threads that have a node each, for the runs that explorer.c makes (../explore_nodes.py). The library's
 * files (or copies into which a fault has been planted) are compiled with -fsanitize=thread. The compiler then inserts
 * a function call at each memory access, and explorer.c implements the functions that are called. */
#include <errno.h>
#include <line.h>
#include <sched.h>
#include "explorer.h"

static struct {
    struct {
        _Alignas(QOLB_NODE_ALIGN) qolb_node node;
    } of[THREADS];
    int turns, inside;
    /* Of each task: whether its call was made, and how often since it wanted one. */
    struct {
        atomic_uint word;
        int calls;
    } told[THREADS];
    atomic_uint mutex;
    int depth;
    struct {
        _Alignas(QOLB_NODE_ALIGN) qolb_node node;
    } other[2]; /* of a second line */
    struct line *line, *other_line;
} it;

int qolb_yield_(void);
int qolb_yield_(void) {
    sched_yield();
    return 1;
}

static void turn_with(int yields) {
    MUST(it.inside++ == 0);
    it.turns++;
    while (yields-- > 0) sched_yield();
    MUST(--it.inside == 0);
}

static void turn(void) { turn_with(0); }

/* ---- Threads that have a node each ---- */

static void releases_turn(int self) {
    turn();
    MUST(qolb_deqolb(&it.of[self].node) == QOLB_DONE);
}

static void acquires_once(int self) {
    MUST(qolb_acquire(&it.of[self].node) == QOLB_GRANTED);
    releases_turn(self);
}

static void acquires_twice(int self) { acquires_once(self), acquires_once(self); }

static void acquires_in_time(int self) {
    uint32_t got = self ? qolb_acquire_within(&it.of[self].node, MS) : qolb_acquire(&it.of[self].node);
    if (got == QOLB_TIMEDOUT) return;
    MUST(got == QOLB_GRANTED);
    releases_turn(self);
}

static void acquires_in_time_and_again(int self) { acquires_in_time(self), acquires_once(self); }

/* A thread that polls, yields, and sleeps nowhere. */
static uint32_t looks_on(int self) {
    qolb_node *node = &it.of[self].node;
    uint32_t got = qolb_enqolb(node);
    while (got == QOLB_QUEUED || got == QOLB_WAITING) {
        sched_yield();
        got = qolb_poll(node);
    }
    return got;
}

static void one_looks_on(int self) {
    MUST((self == 1 ? looks_on(1) : qolb_acquire(&it.of[self].node)) == QOLB_GRANTED);
    releases_turn(self);
}

static void one_withdraws(int self) {
    uint32_t got = self == 1 ? qolb_try(&it.of[1].node) : qolb_acquire(&it.of[self].node);
    if (got == QOLB_BUSY) return;
    MUST(got == QOLB_GRANTED);
    releases_turn(self);
}

static void shuts_line(int self, uint32_t got) {
    if (got == QOLB_CLOSED) return;
    MUST(got == QOLB_GRANTED);
    turn();
    MUST((self ? qolb_deqolb : qolb_shut)(&it.of[self].node) == QOLB_DONE);
}

static void one_shuts(int self) { shuts_line(self, qolb_acquire(&it.of[self].node)); }

static void one_shuts_and_one_looks_on(int self) {
    shuts_line(self, self == 1 ? looks_on(1) : qolb_acquire(&it.of[self].node));
}

static void acquires_and_releases(qolb_node *node) {
    MUST(qolb_acquire(node) == QOLB_GRANTED && qolb_deqolb(node) == QOLB_DONE);
}

/* One holds two lines, at which the others wait, and releases one after the other. */
static void one_holds_two_lines(int self) {
    if (self) return acquires_and_releases(self == 1 ? &it.of[1].node : &it.other[1].node);
    MUST(qolb_acquire(&it.of[0].node) == QOLB_GRANTED && qolb_acquire(&it.other[0].node) == QOLB_GRANTED);
    for (int k = 0; k < 3; k++) sched_yield();
    MUST(qolb_deqolb(&it.other[0].node) == QOLB_DONE);
    sched_yield();
    MUST(qolb_deqolb(&it.of[0].node) == QOLB_DONE);
}

/* ---- Tasks that have a node each, and want a call in place of a wait ---- */

static void tells(void *task) {
    int k = (int)(intptr_t)task;
    step(0);
    it.told[k].calls++;
    atomic_store(&it.told[k].word, 1);
    qolb_wake_at_(&it.told[k].word, 1);
}

/* The thread of the task sleeps until the call was made; false if its time is over. */
static int is_told(int k, uint64_t time) {
    if (!atomic_load(&it.told[k].word)) qolb_sleep_at_(&it.told[k].word, 0, time);
    return atomic_load(&it.told[k].word) != 0;
}

static uint32_t wants_call(int self, void (*call)(void *)) {
    atomic_store(&it.told[self].word, 0);
    return qolb_notify(&it.of[self].node, call, (void *)(intptr_t)self);
}

static uint32_t takes_back(int self) {
    uint32_t off = qolb_notify_off(&it.of[self].node);
    MUST(it.told[self].calls == (off == QOLB_DONE));
    it.told[self].calls = 0;
    uint32_t got = qolb_withdraw(&it.of[self].node);
    return got == QOLB_WITHDRAWN ? (uint32_t)QOLB_TIMEDOUT : got;
}

static uint32_t is_notified(int self, uint64_t time) {
    uint32_t got = qolb_enqolb(&it.of[self].node);
    while (got == QOLB_QUEUED || got == QOLB_WAITING) {
        got = wants_call(self, tells);
        if (got != QOLB_WAITING) break;
        while (!is_told(self, time))
            if (time != FOR_EVER) return takes_back(self);
        MUST(qolb_notify_off(&it.of[self].node) == QOLB_DONE);
        MUST(it.told[self].calls-- == 1);
        got = qolb_poll(&it.of[self].node);
    }
    MUST(it.told[self].calls == 0);
    return got;
}

static void notified(int self) {
    MUST(is_notified(self, FOR_EVER) == QOLB_GRANTED);
    releases_turn(self);
}

static void notified_twice(int self) { notified(self), notified(self); }

static void notified_in_time(int self) {
    uint32_t got = is_notified(self, self == 1 ? MS : FOR_EVER);
    if (got == QOLB_TIMEDOUT) return;
    MUST(got == QOLB_GRANTED);
    releases_turn(self);
}

/* Its node may be busy. */
static void notified_in_time_and_again(int self) {
    notified_in_time(self);
    uint32_t got = self == 1 ? qolb_enqolb(&it.of[1].node) : (uint32_t)QOLB_BUSY;
    if (got == QOLB_QUEUED) got = wants_call(1, tells) == QOLB_WAITING ? takes_back(1) : (uint32_t)QOLB_GRANTED;
    if (got == QOLB_GRANTED) releases_turn(1);
}

/* One wants a call while the other holds the line and releases it once, and takes that back at once. */
static void one_takes_back(int self) {
    if (self == 0) {
        MUST(qolb_acquire(&it.of[0].node) == QOLB_GRANTED);
        turn_with(1);
        MUST(qolb_deqolb(&it.of[0].node) == QOLB_DONE);
        return;
    }
    uint32_t got = qolb_enqolb(&it.of[1].node);
    if (got == QOLB_QUEUED) got = wants_call(1, tells);
    if (got == QOLB_WAITING) sched_yield(), got = takes_back(1);
    if (got == QOLB_GRANTED) releases_turn(1);
}

static void one_notified_shuts(int self) { shuts_line(self, is_notified(self, FOR_EVER)); }

static void one_notified_beside_threads(int self) {
    if (self == 1) notified(self);
    else acquires_once(self);
}

/* The first wish is replaced; its call was made, or will not be. */
static void wants_two_calls(int self) {
    uint32_t got = qolb_enqolb(&it.of[self].node);
    if (got == QOLB_QUEUED) got = wants_call(self, tells);
    if (got == QOLB_WAITING) got = qolb_notify(&it.of[self].node, tells, (void *)(intptr_t)self);
    if (got == QOLB_WAITING) {
        while (!is_told(self, FOR_EVER)) {}
        qolb_notify_off(&it.of[self].node);
        MUST(it.told[self].calls == 1 || it.told[self].calls == 2);
        it.told[self].calls = 0;
        atomic_store(&it.told[self].word, 0);
        while ((got = qolb_poll(&it.of[self].node)) == QOLB_WAITING) sched_yield();
    } else {
        /* The first call may have been made before the second one was wanted; it is not made any more. */
        MUST(it.told[self].calls <= 1);
        it.told[self].calls = 0;
    }
    MUST(got == QOLB_GRANTED);
    releases_turn(self);
}

/* The call has the task's turn, in the thread that released, and the task's thread does nothing more with the node. It
 * is called for one turn after another. */
static void has_turn(void *task) {
    int k = (int)(intptr_t)task;
    MUST(it.depth++ == 0);
    uint32_t got = qolb_notify(&it.of[k].node, has_turn, task);
    if (got == QOLB_GRANTED) {
        qolb_notify_done();
        releases_turn(k);
        atomic_store(&it.told[k].word, 1);
        qolb_wake_at_(&it.told[k].word, 1);
    }
    it.depth--;
}

static void has_turn_in_call(int self) {
    if (self == 0) {
        acquires_once(self);
        return;
    }
    uint32_t got = qolb_enqolb(&it.of[self].node);
    if (got == QOLB_QUEUED) got = wants_call(self, has_turn);
    if (got == QOLB_GRANTED) releases_turn(self);
    while (got == QOLB_WAITING && !is_told(self, FOR_EVER)) {}
}

/* The call takes a lock that its task has while it takes the wish back. */
static void locks_and_tells(void *task) {
    qolb_notify_done();
    take_guard(&it.mutex);
    it.told[(intptr_t)task].calls++;
    return_guard(&it.mutex);
}

static void takes_back_under_a_lock(int self) {
    if (self != 1) {
        acquires_once(self);
        return;
    }
    uint32_t got = qolb_enqolb(&it.of[1].node);
    if (got == QOLB_QUEUED) got = wants_call(1, locks_and_tells);
    if (got == QOLB_WAITING) {
        take_guard(&it.mutex);
        qolb_notify_off(&it.of[1].node);
        MUST(it.told[1].calls <= 1);
        got = qolb_withdraw(&it.of[1].node);
        return_guard(&it.mutex);
    }
    if (got == QOLB_GRANTED) releases_turn(1);
}

/* One withdraws and closes, and leaves its wish to that; the others close too, and the last frees the line. */
static void closes_with_a_wish(int self) {
    qolb_node *node = &it.of[self].node;
    uint32_t got = self == 1 ? qolb_enqolb(node) : qolb_acquire(node);
    if (got == QOLB_QUEUED) got = wants_call(self, tells);
    if (got == QOLB_WAITING) got = qolb_withdraw(node);
    if (got == QOLB_GRANTED) releases_turn(self);
    MUST(qolb_node_free(node) == QOLB_DONE);
    if (self == 1) MUST(it.told[1].calls <= 1);
    it.told[self].calls = 0;
}

/* One has a turn of the second line while it waits for the first, and its call ends that turn and closes the node. The
 * other node of the second line withdraws and closes meanwhile: so nobody has that line open any more when the calls
 * are made that this call puts off. */
static void ends_other_turn(void *task) {
    MUST(qolb_deqolb(&it.other[0].node) == QOLB_DONE && qolb_node_free(&it.other[0].node) == QOLB_DONE);
    sched_yield();
    tells(task);
}

static void waits_for_both_lines(void) {
    MUST(qolb_acquire(&it.other[0].node) == QOLB_GRANTED);
    uint32_t got = qolb_enqolb(&it.of[1].node);
    if (got == QOLB_QUEUED) got = wants_call(1, ends_other_turn);
    if (got == QOLB_GRANTED) ends_other_turn((void *)1);
    while (got == QOLB_WAITING) {
        while (!is_told(1, FOR_EVER)) {}
        MUST(qolb_notify_off(&it.of[1].node) == QOLB_DONE);
        got = qolb_poll(&it.of[1].node);
    }
    MUST(it.told[1].calls-- == 1);
    releases_turn(1);
}

static void closes_other_line(void) {
    qolb_node *node = &it.other[1].node;
    uint32_t got = qolb_enqolb(node);
    if (got == QOLB_QUEUED) got = qolb_notify(node, tells, (void *)2);
    if (got == QOLB_WAITING) sched_yield(), got = qolb_withdraw(node);
    if (got == QOLB_GRANTED) MUST(qolb_deqolb(node) == QOLB_DONE);
    MUST(qolb_node_free(node) == QOLB_DONE);
    it.told[2].calls = 0;
}

static void closes_a_line_in_a_call(int self) {
    if (self == 0) {
        MUST(qolb_acquire(&it.of[0].node) == QOLB_GRANTED);
        turn_with(2);
        MUST(qolb_deqolb(&it.of[0].node) == QOLB_DONE);
    } else if (self == 1) {
        waits_for_both_lines();
    } else {
        closes_other_line();
    }
}

/* The last that closes frees the line. */
static void all_close(int self) {
    acquires_once(self);
    MUST(qolb_node_free(&it.of[self].node) == QOLB_DONE);
}

const struct scene scenes[] = {
    {"nodes: three acquire", acquires_once, QOLB_TICKET, 3},
    {"nodes: three acquire, who link", acquires_once, QOLB_LINK, 3},
    {"nodes: two acquire twice", acquires_twice, QOLB_TICKET, 2},
    {"nodes: two acquire twice, and link", acquires_twice, QOLB_LINK, 2},
    {"nodes: two are late", acquires_in_time, QOLB_TICKET, 3},
    {"nodes: one is late and comes again", acquires_in_time_and_again, QOLB_TICKET, 2},
    {"nodes: one looks on", one_looks_on, QOLB_TICKET, 3},
    {"nodes: one withdraws", one_withdraws, QOLB_TICKET, 3},
    {"nodes: one shuts", one_shuts, QOLB_TICKET, 3},
    {"nodes: one shuts, and one looks on", one_shuts_and_one_looks_on, QOLB_TICKET, 3},
    {"nodes: all close", all_close, QOLB_TICKET, 3},
    {"nodes: one holds two lines", one_holds_two_lines, QOLB_TICKET, 3, 1},
    {"callbacks: three", notified, QOLB_TICKET, 3},
    {"callbacks: three, who link", notified, QOLB_LINK, 3},
    {"callbacks: two twice", notified_twice, QOLB_TICKET, 2},
    {"callbacks: one gives up", notified_in_time, QOLB_TICKET, 3},
    {"callbacks: one gives up and asks again", notified_in_time_and_again, QOLB_TICKET, 2},
    {"callbacks: one takes back at once", one_takes_back, QOLB_TICKET, 2},
    {"callbacks: one shuts", one_notified_shuts, QOLB_TICKET, 3},
    {"callbacks: one beside threads", one_notified_beside_threads, QOLB_TICKET, 3},
    {"callbacks: each wants two calls", wants_two_calls, QOLB_TICKET, 2},
    {"callbacks: calls have turns", has_turn_in_call, QOLB_TICKET, 3},
    {"callbacks: one takes back under a lock", takes_back_under_a_lock, QOLB_TICKET, 3},
    {"callbacks: one closes with a wish", closes_with_a_wish, QOLB_TICKET, 3},
    {"callbacks: one closes a line in a call", closes_a_line_in_a_call, QOLB_TICKET, 3, 1},
    {NULL, NULL, 0, 0},
};

/* Before each run all is as at the start of the program. */
void set_up(const struct scene *scene) {
    static const qolb_bytes zeros;
    qolb_node nodes[THREADS] = {{0}}, more[2] = {{0}};
    memset(&it, 0, sizeof it);
    MUST(qolb_open(scene->kind, 0, (uint64_t)scene->threads, QOLB_NO_LEASE, &zeros, nodes, THREADS) == QOLB_DONE);
    for (int k = 0; k < scene->threads; k++) it.of[k].node = nodes[k];
    it.line = node_of(&nodes[0])->line;
    if (!scene->two_lines) return;
    MUST(qolb_open(scene->kind, 0, 2, QOLB_NO_LEASE, &zeros, more, 2) == QOLB_DONE);
    for (int k = 0; k < 2; k++) it.other[k].node = more[k];
    it.other_line = node_of(&more[0])->line;
}

/* A line that is open has nobody who waits, and one whose nodes are closed is freed. */
__attribute__((no_sanitize("thread"))) static void check_line(struct line *line, int is_open) {
    struct callbacks *of = &line->callbacks;
    if (!is_open) {
        MUST(was_freed(line));
        return;
    }
    MUST(!of->first && !of->running && !of->waiting && !of->guard);
    for (uint64_t k = 0; k < places_for(line->nodes); k++) MUST(!place_at(line, k * LAYOUT_PLACE_WORDS)->sleepers);
}

/* All threads have ended. */
void check_end(const struct scene *scene) {
    static const struct {
        void (*does)(int);
        int turns;
    } each[] = {{acquires_once, 1},   {acquires_twice, 2},  {all_close, 1},
                {notified, 1},        {notified_twice, 2},  {one_notified_beside_threads, 1},
                {wants_two_calls, 1}, {has_turn_in_call, 1}};
    for (size_t k = 0; k < sizeof each / sizeof each[0]; k++)
        MUST(scene->does != each[k].does || it.turns == each[k].turns * scene->threads);
    for (int k = 0; k < THREADS; k++) MUST(it.told[k].calls == 0 || scene->does == takes_back_under_a_lock);
    check_line(it.line, it.of[0].node.own != NULL);
    if (scene->two_lines) check_line(it.other_line, it.other[0].node.own != NULL);
    MUST(it.inside == 0);
}

/* The files of nodes have no data of a thread but errno, and what explorer.c keeps. */
int is_own(uintptr_t at) { return at - (uintptr_t)&errno < sizeof errno; }

void change_thread(struct own_data *from, const struct own_data *to) { (void)from, (void)to; }
