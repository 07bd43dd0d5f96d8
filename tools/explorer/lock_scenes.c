/* The actions of threads that use a lock, for the runs that explorer.c makes (../explore_lock.py). The lock's files (or
 * copies into which a fault has been planted) and the stand-in for the proved calls are compiled with
 * -fsanitize=thread. The compiler then inserts a function call at each memory access, and explorer.c implements the
 * functions that are called. */
#include "lock_scenes.h"
#include <errno.h>

struct it it;

BY_THREAD struct core_arena *qolb_core_arena_;
BY_THREAD unsigned qolb_learned_[SPINS];
unsigned model_near, model_sleepers, model_open, model_patience, model_barges, model_processors;
int model_tries;
static int model_memory;

/* The tables of the model's threads, which are in one thread of the system. */
static struct own owns[THREADS + 1];
UNSEEN struct own *model_own(void) { return &owns[self_number()]; }

/* As heap.c, which is not explored. */
void *qolb_malloc_(size_t size);
void qolb_free_(void *block);
UNSEEN void *qolb_malloc_(size_t size) {
    static const size_t sizes[CORE_BLOCKS] = {LAYOUT_CORE_WORDS_BYTES, LAYOUT_CORE_SLOTS_BYTES,
                                              LAYOUT_CORE_BLOCK_BYTES};
    MUST(qolb_core_arena_ && qolb_core_arena_->taken < CORE_BLOCKS && size == sizes[qolb_core_arena_->taken]);
    return qolb_core_arena_->block[qolb_core_arena_->taken++];
}
void qolb_free_(void *block) { (void)block; }

/* For an entry, where the scene has memory for it. It may take a lock, as a program's malloc does. */
static struct {
    void *at[16];
    int many;
    qolb_lock *lock;
} entries;
void *model_entry(size_t size);
UNSEEN void *model_entry(size_t size) {
    if (!model_memory) return NULL;
    if (entries.lock) MUST(qolb_lock_enter(entries.lock) == QOLB_GRANTED && qolb_lock_is_mine(entries.lock));
    MUST(entries.many < 16);
    void *entry = entries.at[entries.many++] = model_malloc(size);
    if (entries.lock) MUST(qolb_lock_leave(entries.lock) == QOLB_DONE);
    return entry;
}

/* A program's free may take locks, too: so who frees has no guard, and waits here until no other has it. */
void model_entry_freed(void *entry);
UNSEEN void model_entry_freed(void *entry) {
    while (*(const volatile unsigned *)&qolb_guards_[0].word) sched_yield();
    model_free(entry);
}

/* ---- Who may be served before whom ----
 *
 * Of each thread in a call: since when; from the step that drew its ticket on, how many turns of calls that began later
 * it has seen, and how many calls have ended that other threads were in then. A task counts as the thread that makes
 * its calls. */
static struct {
    int in_call, waits, passed, gone, drawn, hurries, yields;
    long began, since;
} order[THREADS + 1];
static int for_second;
static long time_of_order;

UNSEEN static int who(void) { return for_second && self_number() == 0 ? THREADS : self_number(); }
UNSEEN void is_second(int self, int so) { for_second = self == 0 && so; }
UNSEEN void begins_call(void) {
    int me = who();
    order[me].in_call = 1, order[me].waits = order[me].yields = 0, order[me].began = ++time_of_order;
}
UNSEEN void hook_draws(void) {
    int me = who();
    order[me].drawn++;
    if (self_number() < THREADS && order[me].in_call)
        order[me].waits = 1, order[me].since = ++time_of_order, order[me].passed = order[me].gone = 0;
}
/* A call that may not wait does not yield; and one that yields waits. */
UNSEEN static void hurries(int so) { order[who()].hurries = so; }
UNSEEN int qolb_yield_(void) {
    must(!order[who()].hurries, "a call that may not wait yields");
    order[who()].yields = order[who()].in_call;
    sched_yield();
    return 1;
}
UNSEEN int has_drawn(int self) { return order[self].drawn > 0; }
UNSEEN void hook_withdraws(void) { order[who()].waits = 0; }
UNSEEN void ends_call(void) {
    int me = who();
    for (int k = 0; k <= THREADS; k++) order[k].gone += order[me].in_call && order[me].began < order[k].since;
    order[me].in_call = order[me].waits = order[me].yields = order[me].hurries = 0;
}

/* With a barging limit of B at most B - 1 later calls go first, which drew no ticket, until a thread goes that was
 * there before. */
UNSEEN static void enters_turn(void) {
    int me = who(), barging = (int)lock_of(it.lock)->limit, later = barging ? barging - 1 : 0;
    for (int k = 0; k <= THREADS; k++) {
        if (!order[k].waits || !order[me].in_call || order[me].began < order[k].since) continue;
        must(++order[k].passed <= (order[k].gone + 1) * later, "a thread that waits is overtaken too often");
        must(!order[me].waits, "a thread that waits is overtaken by one behind it");
    }
    ends_call();
}

/* ---- The handoff to a task ----
 *
 * A task that is the first of those that wait lets no barging thread follow who is in: once it sleeps as the queue head
 * of a lock no barging thread goes in before the queue head does. */
static const struct qolb_ticket *head_of[THREADS + 1]; /* of a task that is to be one, by the thread that sees to it */
static uint64_t handed_over[2 * LOCKS];                /* the labels of locks with such a head */

UNSEEN static uint64_t *hand_over(uint64_t label) {
    uint64_t *place = handed_over;
    while (*place != label && place < handed_over + 2 * LOCKS - 1) place++;
    return place;
}
UNSEEN void hook_is_head(const struct qolb_ticket *ticket) { head_of[self_number()] = ticket; }
UNSEEN void hook_head_sleeps(const struct qolb_ticket *ticket) {
    if (head_of[self_number()] == ticket && *hand_over(ticket->label) != ticket->label) *hand_over(0) = ticket->label;
    head_of[self_number()] = NULL;
}
UNSEEN void hook_takes_outer(uint64_t label) {
    head_of[self_number()] = NULL;
    if (*hand_over(label) == label) *hand_over(label) = 0;
}
UNSEEN void hook_goes_in(uint64_t label) {
    must(*hand_over(label) != label, "a barging thread goes in before a task that is the first of those that wait");
}

static void turn_with(int yields) {
    enters_turn();
    MUST(it.inside++ == 0);
    it.turns++;
    MUST(!it.shut);
    while (yields-- > 0) sched_yield();
    MUST(--it.inside == 0);
}

void turn(void) { turn_with(0); }

void leave(void) { MUST(qolb_lock_leave(it.lock) == QOLB_DONE); }

void enters_with(int yields) {
    begins_call();
    MUST(qolb_lock_enter(it.lock) == QOLB_GRANTED);
    turn_with(yields);
    leave();
}

void enters(int self) {
    (void)self;
    enters_with(0);
}

static void enters_twice(int self) { enters(self), enters(self); }

static void enters_thrice(int self) { enters_twice(self), enters(self); }

/* Two let the others go on in their turns. */
static void two_yield(int self) { enters_with(self != 1); }

/* One lets the others go on in its turn, at length. */
static void one_yields(int self) { enters_with(self == 0 ? 3 : 0); }

/* One enters four times, and the others once. */
void one_stays(int self) {
    if (self == 0) enters_thrice(self);
    enters(self);
}

static void enters_again(int self) {
    MUST(qolb_cond_wait(&it.cond, it.lock) == QOLB_MISUSE);
    for (int k = 0; k < 2; k++) {
        MUST(qolb_lock_enter(it.lock) == QOLB_GRANTED);
        MUST(qolb_lock_enter(it.lock) == QOLB_MISUSE && qolb_lock_enter_within(it.lock, MS) == QOLB_MISUSE &&
             qolb_lock_try(it.lock) == QOLB_BUSY && qolb_lock_is_mine(it.lock));
        MUST(qolb_lock_destroy(it.lock) == QOLB_BUSY);
        turn();
        leave();
    }
    MUST(qolb_lock_leave(it.lock) == QOLB_MISUSE && qolb_cond_wait(&it.cond, it.lock) == QOLB_MISUSE);
    (void)self;
}

/* ---- Limits ---- */

static void within(int self, uint64_t nanoseconds) {
    begins_call();
    hurries(self && !nanoseconds);
    uint32_t got = self ? qolb_lock_enter_within(it.lock, nanoseconds) : qolb_lock_enter(it.lock);
    if (got != QOLB_GRANTED) ends_call();
    if (got == QOLB_TIMEDOUT) return;
    MUST(got == QOLB_GRANTED);
    turn();
    leave();
}

void is_late(int self) { within(self, MS); }

static void one_is_late(int self) { within(self == 1, MS); }

static void one_late_beside_one_that_yields(int self) { self == 0 ? enters_with(3) : one_is_late(self); }

static void two_late_beside_one_that_yields(int self) { self == 0 ? enters_with(3) : is_late(self); }

/* Memory takes a lock for which the table has no place of its own. */
static void late_with_memory_by_a_lock(int self) { two_late_beside_one_that_yields(self); }

static void is_late_and_comes_again(int self) { is_late(self), enters(self); }

/* At once, or not at all. */
static void looks_in(int self) { within(self, 0); }

void tries(int self) {
    begins_call();
    hurries(self == 1);
    uint32_t got = self == 1 ? qolb_lock_try(it.lock) : qolb_lock_enter(it.lock);
    if (got == QOLB_BUSY) ends_call();
    if (got == QOLB_BUSY) return;
    MUST(got == QOLB_GRANTED);
    turn();
    leave();
}

/* The last that had a turn tries behind it: nobody has the lock. */
static void last_tries(int self) {
    (void)self;
    begins_call();
    MUST(qolb_lock_enter(it.lock) == QOLB_GRANTED);
    turn();
    int last = --it.users == 0;
    leave();
    if (!last) return;
    MUST(qolb_lock_try(it.lock) == QOLB_GRANTED);
    leave();
}

/* ---- Shutting and closing ---- */

int enters_to_shut(int self) {
    uint32_t got = self == 2 ? qolb_lock_enter_within(it.lock, MS) : qolb_lock_enter(it.lock);
    if (got == QOLB_TIMEDOUT) MUST(self == 2);
    if (got == QOLB_CLOSED || got == QOLB_TIMEDOUT) return 0;
    MUST(got == QOLB_GRANTED);
    turn();
    it.shut = self == 0;
    MUST((self ? qolb_lock_leave : qolb_lock_shut)(it.lock) == QOLB_DONE);
    return 1;
}

static void shuts(int self) { enters_to_shut(self); }

/* Once a shut has returned, each call is told CLOSED at once. */
static void shuts_and_asks(int self) {
    if (!enters_to_shut(self) || self) return;
    MUST(qolb_lock_try(it.lock) == QOLB_CLOSED);
    MUST(qolb_lock_enter_within(it.lock, 0) == QOLB_CLOSED);
    for (int k = 0; k < 2; k++) MUST(qolb_lock_enter(it.lock) == QOLB_CLOSED);
}

/* One has had the lock, waits for it again, and is told: it does not hold it, now and at each later call. */
static void enters_until_shut(int self) {
    uint32_t got = QOLB_GRANTED;
    if (self == 0) {
        enters_with(1);
        MUST(qolb_lock_enter(it.lock) == QOLB_GRANTED);
        turn_with(1);
        it.shut = 1;
        MUST(qolb_lock_shut(it.lock) == QOLB_DONE);
        return;
    }
    for (;; sched_yield()) {
        got = qolb_lock_enter(it.lock);
        if (got != QOLB_GRANTED) break;
        turn();
        leave();
    }
    MUST(got == QOLB_CLOSED && !qolb_lock_is_mine(it.lock) && qolb_lock_leave(it.lock) == QOLB_MISUSE);
    MUST(qolb_lock_enter(it.lock) == QOLB_CLOSED && qolb_lock_try(it.lock) == QOLB_CLOSED);
}

/* The lock is closed only once no thread is about to call: so the other waits, without a ticket or with one, spins, or
 * is in a call no more. */
UNSEEN int is_known(int other) {
    struct lock *lock = lock_of(it.lock);
    return order[other].waits || order[other].yields || *(unsigned *)&lock->without_ticket;
}
void await_other(int other) {
    while (!is_known(other) && !atomic_fetch_add(&it.over, 0)) sched_yield();
}

/* Another is on its way to be told. */
static void shuts_and_closes(int self) {
    if (self) {
        begins_call();
        uint32_t got = qolb_lock_enter(it.lock);
        MUST(got == QOLB_CLOSED || (got == QOLB_GRANTED && qolb_lock_leave(it.lock) == QOLB_DONE));
        ends_call();
        atomic_store(&it.over, 1);
        return;
    }
    MUST(qolb_lock_enter(it.lock) == QOLB_GRANTED);
    await_other(1);
    it.shut = 1;
    MUST(qolb_lock_shut(it.lock) == QOLB_DONE);
    uint32_t got = qolb_lock_destroy(it.lock);
    MUST(got == QOLB_DONE || got == QOLB_BUSY);
    if (atomic_fetch_add(&it.over, 0)) MUST(qolb_lock_destroy(it.lock) == QOLB_DONE);
}

void free_lock(void) {
    model_free(it.block);
    it.lock = NULL;
}

static void frees_if_last(int yields) {
    begins_call();
    MUST(qolb_lock_enter(it.lock) == QOLB_GRANTED);
    turn_with(yields);
    int last = --it.users == 0;
    leave();
    if (!last) return;
    MUST(qolb_lock_destroy(it.lock) == QOLB_DONE && it.lock->own == NULL);
    free_lock();
}

void last_frees(int self) {
    if (self == 2) enters(self);
    frees_if_last(0);
}

static void last_frees_and_yields(int self) {
    (void)self;
    frees_if_last(2);
}

/* One gives up, and says so before: the last of the others frees the lock then. */
static void last_frees_beside_one_that_is_late(int self) {
    if (self != 2) return frees_if_last(self == 0);
    uint32_t got = qolb_lock_enter_within(it.lock, MS);
    int last = 0;
    if (got == QOLB_GRANTED) {
        turn();
        last = --it.users == 0;
        leave();
    } else {
        MUST(got == QOLB_TIMEDOUT);
        MUST(qolb_lock_enter(it.lock) == QOLB_GRANTED);
        last = --it.users == 0;
        leave();
    }
    if (!last) return;
    MUST(qolb_lock_destroy(it.lock) == QOLB_DONE);
    free_lock();
}

/* One closes the lock behind its turn, while another waits, is late, or leaves. */
static void one_closes(int self) {
    if (self) {
        is_late(self);
        atomic_store(&it.over, 1);
        return;
    }
    MUST(qolb_lock_enter(it.lock) == QOLB_GRANTED);
    await_other(1);
    leave();
    uint32_t got = qolb_lock_destroy(it.lock);
    MUST(got == QOLB_DONE || got == QOLB_BUSY);
    if (atomic_fetch_add(&it.over, 0)) MUST(qolb_lock_destroy(it.lock) == QOLB_DONE);
}

/* One frees the lock as soon as it may, while another waits, is late, or leaves, and then makes no call any more. */
static void one_frees(int self) {
    if (self) {
        is_late(self);
        atomic_store(&it.over, 1);
        return;
    }
    MUST(qolb_lock_enter(it.lock) == QOLB_GRANTED);
    await_other(1);
    leave();
    while (qolb_lock_destroy(it.lock) != QOLB_DONE) sched_yield();
    free_lock();
}

/* One is in, and another closes. */
static void one_closes_beside_a_holder(int self) {
    if (self) {
        MUST(qolb_lock_enter(it.lock) == QOLB_GRANTED);
        atomic_store(&it.over, 1);
        while (atomic_fetch_add(&it.over, 0) == 1) sched_yield();
        leave();
        return;
    }
    while (!atomic_fetch_add(&it.over, 0)) sched_yield();
    MUST(qolb_lock_destroy(it.lock) == QOLB_BUSY);
    atomic_store(&it.over, 2);
}

UNSEEN int had_turns(int turns) { return it.turns >= turns; }

/* The lock is closed as soon as it may be, and used again at the same address, where another's ticket is abandoned. Who
 * left the first lock may be in that call still. */
static void is_late_at_the_younger(void) {
    begins_call();
    uint32_t got = qolb_lock_enter_within(it.lock, MS);
    ends_call();
    if (got == QOLB_TIMEDOUT) got = (atomic_store(&it.over, 2), qolb_lock_enter(it.lock));
    MUST(got == QOLB_GRANTED);
    atomic_store(&it.over, 2);
    leave();
}

static void closes_and_comes_again(void) {
    while (!had_turns(2) || qolb_lock_destroy(it.lock) != QOLB_DONE) sched_yield();
    MUST(qolb_lock_enter(it.lock) == QOLB_GRANTED);
    atomic_store(&it.over, 1);
}

static void comes_again_beside_one_that_is_late(void) {
    closes_and_comes_again();
    while (atomic_fetch_add(&it.over, 0) < 2 && !is_known(2)) sched_yield();
    sched_yield();
    leave();
}

static void late_at_a_younger_lock(int self) {
    if (self == 0) return enters_with(1);
    if (self == 1) return enters(self), comes_again_beside_one_that_is_late();
    while (!atomic_fetch_add(&it.over, 0)) sched_yield();
    is_late_at_the_younger();
}

static void enters_within_long(void) {
    begins_call();
    MUST(qolb_lock_enter_within(it.lock, 100 * MS) == QOLB_GRANTED);
    turn();
    leave();
}

/* The same, where one is woken by time now and then, and the other's time is over once it has drawn its ticket. */
static void late_soon_at_a_younger_lock(int self) {
    if (self == 0) return enters_with(2);
    if (self == 1) return enters_within_long(), comes_again_beside_one_that_is_late();
    while (!atomic_fetch_add(&it.over, 0)) sched_yield(), times_out();
    time_goes_on(MS / 2);
    is_late_at_the_younger();
}

/* The same, where the time of the other is over in the turn of who has the younger lock, which frees that behind its
 * turn: the one to which its leave passed the turn on was late. */
static void frees_a_younger_lock(int self) {
    if (self == 0) return enters_with(2);
    if (self == 1) {
        enters_within_long();
        closes_and_comes_again();
        while (atomic_fetch_add(&it.over, 0) < 2) sched_yield(), times_out();
        leave();
        return free_lock();
    }
    while (!atomic_fetch_add(&it.over, 0)) sched_yield(), times_out();
    time_goes_on(MS / 2);
    MUST(qolb_lock_enter_within(it.lock, MS) == QOLB_TIMEDOUT);
    atomic_store(&it.over, 2);
}

/* ---- Conditions ---- */

/* Writes where the frames of its caller's last calls were. */
__attribute__((noinline)) static void use_stack(void) {
    volatile uint64_t bytes[128];
    for (int k = 0; k < 128; k++) bytes[k] = 1;
}

enum { SIGNALS_TWICE, WAITS_ON, WAITS_FOR_A_TIME };

static void waits_or_signals(int what) {
    MUST(qolb_lock_enter(it.lock) == QOLB_GRANTED);
    if (what == SIGNALS_TWICE) it.has += 2;
    while (what != SIGNALS_TWICE && !it.has) {
        uint32_t got = what == WAITS_ON ? qolb_cond_wait(&it.cond, it.lock)
                                        : qolb_cond_wait_within(&it.cond, it.lock, MS);
        MUST(got == QOLB_GRANTED || (got == QOLB_TIMEDOUT && what == WAITS_FOR_A_TIME));
        if (got == QOLB_TIMEDOUT) break;
    }
    use_stack();
    turn();
    if (what != SIGNALS_TWICE && it.has) it.has--;
    leave();
    if (what == SIGNALS_TWICE) qolb_cond_signal(&it.cond), qolb_cond_signal(&it.cond);
}

static void waits(int self) { waits_or_signals(self); }

/* In this order, unless there are turns of the schedule: so the last may be late. */
static void waits_in_order(int self) { waits_or_signals((self + 1) % THREADS); }

/* One waits at the condition while another enters again and again, and signals in its last turn. */
static void waits_while_one_stays(int self) {
    if (self == 0) {
        MUST(qolb_lock_enter(it.lock) == QOLB_GRANTED);
        while (!it.has) MUST(qolb_cond_wait(&it.cond, it.lock) == QOLB_GRANTED);
        turn();
        leave();
        return;
    }
    enters_twice(self);
    MUST(qolb_lock_enter(it.lock) == QOLB_GRANTED);
    it.has = 1;
    turn();
    MUST(qolb_cond_signal(&it.cond) == QOLB_DONE);
    leave();
}

/* Two wait until one shuts; one of them is late or signalled before. All make no access to the lock once they are told:
 * so the last of them may free it. */
static void waits_until_shut(int self) {
    uint32_t got = qolb_lock_enter(it.lock);
    if (got != QOLB_CLOSED) MUST(got == QOLB_GRANTED);
    if (got == QOLB_GRANTED && self == 0) {
        it.shut = 1;
        qolb_cond_signal(&it.cond);
        MUST(qolb_lock_shut(it.lock) == QOLB_DONE);
    } else if (got == QOLB_GRANTED) {
        do got = self == 1 ? qolb_cond_wait(&it.cond, it.lock) : qolb_cond_wait_within(&it.cond, it.lock, MS);
        while (got == QOLB_GRANTED || got == QOLB_TIMEDOUT);
        MUST(got == QOLB_CLOSED && it.shut);
        use_stack();
    }
    if (atomic_fetch_add(&it.over, 1) + 1 < it.users) return;
    MUST(qolb_lock_destroy(it.lock) == QOLB_DONE);
    free_lock();
}

/* One waits at the condition, and is signalled, or told of a shut, by one that frees the lock as soon as it may. */
static void shuts_and_frees(int self) {
    uint32_t got = QOLB_GRANTED;
    if (self) {
        MUST(qolb_lock_enter(it.lock) == QOLB_GRANTED);
        it.has = 1;
        while (got == QOLB_GRANTED) got = qolb_cond_wait(&it.cond, it.lock);
        MUST(got == QOLB_CLOSED);
        return;
    }
    for (int waits = 0; !waits;) {
        MUST(qolb_lock_enter(it.lock) == QOLB_GRANTED);
        waits = it.has;
        if (waits) MUST(qolb_cond_signal(&it.cond) == QOLB_DONE);
        MUST((waits ? qolb_lock_shut : qolb_lock_leave)(it.lock) == QOLB_DONE);
        if (!waits) sched_yield();
    }
    while (qolb_lock_destroy(it.lock) != QOLB_DONE) sched_yield();
    free_lock();
}

/* Who waits at the condition is told of the shut, while the other is still in its last call. */
static void is_told_of_a_shut(void) {
    MUST(qolb_lock_enter(it.lock) == QOLB_GRANTED);
    it.has = 1;
    MUST(qolb_cond_wait(&it.cond, it.lock) == QOLB_CLOSED);
}

static void shuts_beside_one_that_waits(void) {
    for (int waits = 0; !waits;) {
        MUST(qolb_lock_enter(it.lock) == QOLB_GRANTED);
        waits = it.has;
        MUST((waits ? qolb_lock_shut : qolb_lock_leave)(it.lock) == QOLB_DONE);
        if (!waits) sched_yield();
    }
}

/* It frees the lock as soon as it is closed. */
static void told_of_a_shut_frees(int self) {
    if (self == 0) return shuts_beside_one_that_waits();
    is_told_of_a_shut();
    while (qolb_lock_destroy(it.lock) != QOLB_DONE) sched_yield();
    free_lock();
}

/* It frees the lock without a further call. */
static void told_of_a_shut_frees_at_once(int self) {
    if (self == 0) return shuts_beside_one_that_waits();
    is_told_of_a_shut();
    free_lock();
}

/* The shut is over for it: each call says so, and it may close the lock. */
static void told_of_a_shut_asks(int self) {
    if (self == 0) return shuts_beside_one_that_waits();
    is_told_of_a_shut();
    MUST(qolb_lock_try(it.lock) == QOLB_CLOSED);
    MUST(qolb_lock_destroy(it.lock) == QOLB_DONE);
    free_lock();
}

/* As shuts_and_frees, of a lock that stays open. */
static void signals_and_frees(int self) {
    if (self) {
        MUST(qolb_lock_enter(it.lock) == QOLB_GRANTED);
        it.has = 1;
        while (it.has == 1) MUST(qolb_cond_wait(&it.cond, it.lock) == QOLB_GRANTED);
        leave();
        return;
    }
    for (int waits = 0; !waits;) {
        MUST(qolb_lock_enter(it.lock) == QOLB_GRANTED);
        waits = it.has;
        if (waits) it.has = 2;
        if (waits) MUST(qolb_cond_signal(&it.cond) == QOLB_DONE);
        leave();
        if (!waits) sched_yield();
    }
    while (qolb_lock_destroy(it.lock) != QOLB_DONE) sched_yield();
    free_lock();
}

/* One closes the lock while another waits at its condition. */
static void one_closes_beside_a_waiter(int self) {
    int waits = 0;
    if (self) {
        MUST(qolb_lock_enter(it.lock) == QOLB_GRANTED);
        it.has = 1;
        while (it.has == 1) MUST(qolb_cond_wait(&it.cond, it.lock) == QOLB_GRANTED);
        leave();
        return;
    }
    while (!waits) {
        MUST(qolb_lock_enter(it.lock) == QOLB_GRANTED);
        waits = it.has;
        if (waits) it.has = 2;
        leave();
        if (waits) MUST(qolb_lock_destroy(it.lock) == QOLB_BUSY);
        if (!waits) sched_yield();
    }
    qolb_cond_signal(&it.cond);
}

/* ---- Several locks ---- */

/* In one order, though the table has room for one turn; and left in another. */
static void holds_three(int self) {
    for (int k = 0; k < LOCKS; k++) MUST(qolb_lock_enter(it.locks[k]) == QOLB_GRANTED);
    for (int k = 0; k < LOCKS; k++) MUST(qolb_lock_enter(it.locks[k]) == QOLB_MISUSE && qolb_lock_is_mine(it.locks[k]));
    turn();
    for (int k = 0; k < LOCKS; k++) MUST(qolb_lock_leave(it.locks[(k + self + 1) % LOCKS]) == QOLB_DONE);
    for (int k = 0; k < LOCKS; k++)
        MUST(qolb_lock_leave(it.locks[k]) == QOLB_MISUSE && !qolb_lock_is_mine(it.locks[k]));
}

/* One waits at a condition of a lock that it holds beyond its table, and another shuts that. */
static void waits_beyond(int self) {
    MUST(qolb_lock_enter(it.locks[1 + self]) == QOLB_GRANTED);
    MUST(qolb_lock_enter(it.lock) == QOLB_GRANTED);
    if (self == 0) it.has = 1;
    while (self && !it.has) MUST(qolb_cond_wait(&it.cond, it.lock) == QOLB_GRANTED);
    turn();
    leave();
    MUST(qolb_lock_leave(it.locks[1 + self]) == QOLB_DONE);
    if (self == 0) MUST(qolb_cond_signal(&it.cond) == QOLB_DONE);
}

/* ---- All scenes ---- */

enum { MANY = 65535, NO_MEMORY = 1 };
#define ROOMY 15, MANY, MANY, 0
#define FAR 0, MANY, MANY, 0
#define CROWDED 15, MANY, 1, 0
const struct scene scenes[] = {
    {"each enters, at the first use", enters, 3, 0, 1, ROOMY},
    {"three enter", enters, 3, 0, 0, ROOMY},
    {"three enter twice", enters_twice, 3, 0, 0, ROOMY},
    {"two enter thrice", enters_thrice, 2, 0, 0, ROOMY},
    {"one stays", one_stays, 3, 0, 0, ROOMY},
    {"two of three yield", two_yield, 3, 0, 0, ROOMY},
    {"no room for a sleeper", two_yield, 3, 0, 0, 15, 0, MANY, 0},
    {"room for one sleeper", two_yield, 3, 0, 0, 15, 1, MANY, 0},
    {"two are late", is_late, 3, 0, 0, ROOMY},
    {"one is late", one_is_late, 3, 0, 0, ROOMY},
    {"two are late and come again", is_late_and_comes_again, 3, 0, 0, ROOMY},
    {"one is late and comes again", is_late_and_comes_again, 2, 0, 0, ROOMY},
    {"one is late beside one that yields", one_late_beside_one_that_yields, 3, 0, 0, ROOMY},
    {"two are late beside one that yields", two_late_beside_one_that_yields, 3, 0, 0, ROOMY},
    {"two look in", looks_in, 3, 0, 0, ROOMY},
    {"one try: two look in", looks_in, 3, 0, 0, ROOMY},
    {"one try: far: two look in", looks_in, 3, 0, 0, FAR},
    {"far: two are late", is_late, 3, 0, 0, FAR},
    {"far: two are late beside one that yields", two_late_beside_one_that_yields, 3, 0, 0, FAR},
    {"far: two look in", looks_in, 3, 0, 0, FAR},
    {"far: two are late and come again", is_late_and_comes_again, 3, 0, 0, FAR},
    {"far: no room for a sleeper", two_late_beside_one_that_yields, 3, 0, 0, 0, 0, MANY, 0},
    {"far: room for one sleeper", two_late_beside_one_that_yields, 3, 0, 0, 0, 1, MANY, 0},
    {"far: memory by a lock", late_with_memory_by_a_lock, 3, 0, 0, FAR},
    {"far: no memory", two_late_beside_one_that_yields, 3, 0, 0, 0, MANY, MANY, NO_MEMORY},
    {"far: a younger lock", late_at_a_younger_lock, 3, 0, 0, FAR},
    {"far: late soon at a younger lock", late_soon_at_a_younger_lock, 3, 0, 0, FAR},
    {"far: one frees a younger lock", frees_a_younger_lock, 3, 0, 0, FAR},
    {"crowded: two are late", is_late, 3, 0, 0, CROWDED},
    {"crowded: two are late beside one that yields", two_late_beside_one_that_yields, 3, 0, 0, CROWDED},
    {"crowded: one shuts", shuts, 3, 0, 0, CROWDED},
    {"crowded: one closes", one_closes, 2, 0, 0, CROWDED},
    {"crowded: one frees", one_frees, 2, 0, 0, CROWDED},
    {"crowded: the last frees beside one that is late", last_frees_beside_one_that_is_late, 3, 0, 0, CROWDED},
    {"one tries", tries, 3, 0, 0, ROOMY},
    {"the last tries", last_tries, 3, 0, 0, ROOMY},
    {"one shuts", shuts, 3, 0, 0, ROOMY},
    {"one shuts and asks", shuts_and_asks, 3, 0, 0, ROOMY},
    {"one shuts and closes", shuts_and_closes, 2, 0, 0, ROOMY},
    {"far: one shuts", shuts, 3, 0, 0, FAR},
    {"the last frees", last_frees, 3, 0, 0, ROOMY},
    {"the last frees, and each yields", last_frees_and_yields, 3, 0, 0, ROOMY},
    {"the last frees beside one that is late", last_frees_beside_one_that_is_late, 3, 0, 0, ROOMY},
    {"far: the last frees beside one that is late", last_frees_beside_one_that_is_late, 3, 0, 0, FAR},
    {"one closes", one_closes, 2, 0, 0, ROOMY},
    {"far: one closes", one_closes, 2, 0, 0, FAR},
    {"one frees", one_frees, 2, 0, 0, ROOMY},
    {"far: one frees", one_frees, 2, 0, 0, FAR},
    {"one closes beside a holder", one_closes_beside_a_holder, 2, 0, 0, ROOMY},
    {"two wait at a condition, one not for ever", waits, 3, 0, 0, ROOMY},
    {"the later of two at a condition is late", waits_in_order, 3, 0, 0, ROOMY},
    {"one waits at a condition while one stays", waits_while_one_stays, 2, 0, 0, ROOMY},
    {"two wait at a condition until one shuts", waits_until_shut, 3, 0, 0, ROOMY},
    {"one shuts and frees beside a waiter", shuts_and_frees, 2, 0, 0, ROOMY},
    {"one signals and frees", signals_and_frees, 2, 0, 0, ROOMY},
    {"one closes beside a waiter", one_closes_beside_a_waiter, 2, 0, 0, ROOMY},
    {"enters again", enters_again, 2, 0, 0, ROOMY},
    {"holds three", holds_three, 2, 0, 1, ROOMY},
    {"waits beyond the table", waits_beyond, 2, 0, 0, ROOMY},
    {"barging: each enters, at the first use", enters, 2, 2, 1, ROOMY},
    {"barging: three enter", enters, 3, 2, 0, ROOMY},
    {"barging: three enter twice", enters_twice, 3, 2, 0, ROOMY},
    {"barging: two enter thrice", enters_thrice, 2, 4, 0, ROOMY},
    {"barging: one yields", one_yields, 3, 4, 0, ROOMY},
    {"barging: two of three yield", two_yield, 3, 2, 0, ROOMY},
    {"barging: one stays", one_stays, 3, 2, 0, ROOMY},
    {"barging: one stays, of three turns", one_stays, 3, 3, 0, ROOMY},
    {"barging: two are late", is_late, 3, 2, 0, ROOMY},
    {"barging: one is late and comes again", is_late_and_comes_again, 2, 2, 0, ROOMY},
    {"barging: two are late beside one that yields", two_late_beside_one_that_yields, 3, 3, 0, ROOMY},
    {"barging: far: two are late", is_late, 3, 2, 0, FAR},
    {"barging: one tries", tries, 3, 2, 0, ROOMY},
    {"barging: the last tries", last_tries, 3, 2, 0, ROOMY},
    {"barging: one shuts", shuts, 3, 2, 0, ROOMY},
    {"barging: one shuts and asks", shuts_and_asks, 3, 2, 0, ROOMY},
    {"barging: one shuts and closes", shuts_and_closes, 2, 2, 0, ROOMY},
    {"barging: the last frees", last_frees, 3, 2, 0, ROOMY},
    {"barging: the last frees, and each yields", last_frees_and_yields, 3, 2, 0, ROOMY},
    {"barging: the last frees beside one that is late", last_frees_beside_one_that_is_late, 3, 2, 0, ROOMY},
    {"barging: one closes", one_closes, 2, 2, 0, ROOMY},
    {"barging: one frees", one_frees, 2, 2, 0, ROOMY},
    {"barging: far: two are late beside one that yields", two_late_beside_one_that_yields, 3, 3, 0, FAR},
    {"barging: far: two are late and come again", is_late_and_comes_again, 3, 2, 0, FAR},
    {"barging: crowded: one frees", one_frees, 2, 2, 0, CROWDED},
    {"barging: crowded: two are late beside one that yields", two_late_beside_one_that_yields, 3, 3, 0, CROWDED},
    {"barging: far: one frees", one_frees, 2, 2, 0, FAR},
    {"barging: one closes beside a holder", one_closes_beside_a_holder, 2, 2, 0, ROOMY},
    {"barging: two wait at a condition, one not for ever", waits, 3, 2, 0, ROOMY},
    {"barging: the later of two at a condition is late", waits_in_order, 3, 2, 0, ROOMY},
    {"barging: two wait at a condition until one shuts", waits_until_shut, 3, 2, 0, ROOMY},
    {"barging: one shuts and frees beside a waiter", shuts_and_frees, 2, 2, 0, ROOMY},
    {"barging: one signals and frees", signals_and_frees, 2, 2, 0, ROOMY},
    {"barging: one closes beside a waiter", one_closes_beside_a_waiter, 2, 2, 0, ROOMY},
    {"barging: enters again", enters_again, 2, 2, 0, ROOMY},
    {"barging: holds three", holds_three, 2, 2, 0, ROOMY},
    {"tasks: a task each", by_task, 3, 0, 0, ROOMY},
    {"tasks: a task each, twice", by_task_twice, 2, 0, 0, ROOMY},
    {"tasks: three tasks, twice", by_task_twice, 3, 0, 0, ROOMY},
    {"tasks: one task gives up", one_task_gives_up, 3, 0, 0, ROOMY},
    {"far: tasks: one task gives up", one_task_gives_up, 3, 0, 0, FAR},
    {"tasks: a task beside threads", a_task_beside_threads, 3, 0, 0, ROOMY},
    {"tasks: tasks beside a thread", tasks_beside_a_thread, 3, 0, 0, ROOMY},
    {"tasks: a task beside threads, twice", a_task_beside_threads_twice, 2, 0, 0, ROOMY},
    {"tasks: tasks beside a thread, twice", tasks_beside_a_thread_twice, 3, 0, 0, ROOMY},
    {"tasks: a task beside one that yields", a_task_beside_one_that_yields, 3, 0, 0, ROOMY},
    {"tasks: tasks beside one that yields", tasks_beside_one_that_yields, 3, 0, 0, ROOMY},
    {"tasks: a task beside one that stays", a_task_beside_one_that_stays, 3, 0, 0, ROOMY},
    {"tasks: a task gives up between threads", a_task_gives_up_between_threads, 3, 0, 0, ROOMY},
    {"far: tasks: a task gives up between threads", a_task_gives_up_between_threads, 3, 0, 0, FAR},
    {"tasks: a task gives up beside one that yields", a_task_gives_up_beside_one_that_yields, 3, 0, 0, ROOMY},
    {"far: tasks: a task gives up beside one that yields", a_task_gives_up_beside_one_that_yields, 3, 0, 0, FAR},
    {"tasks: a task gives up before one", a_task_gives_up_before_one_beside_one_that_yields, 3, 0, 0, ROOMY},
    {"far: tasks: a task gives up before one", a_task_gives_up_before_one_beside_one_that_yields, 3, 0, 0, FAR},
    {"tasks: a task gives up and asks again", a_task_gives_up_and_asks_again, 2, 0, 0, ROOMY},
    {"far: tasks: a task gives up and asks again", a_task_gives_up_and_asks_again, 2, 0, 0, FAR},
    {"tasks: a thread is late between tasks", a_thread_is_late_between_tasks, 3, 0, 0, ROOMY},
    {"far: tasks: a thread is late between tasks", a_thread_is_late_between_tasks, 3, 0, 0, FAR},
    {"tasks: a thread is late before a task", a_thread_is_late_before_a_task, 3, 0, 0, ROOMY},
    {"far: tasks: a thread is late before a task", a_thread_is_late_before_a_task, 3, 0, 0, FAR},
    {"tasks: a thread is late or a task waits", a_thread_is_late_or_a_task_waits, 3, 0, 0, ROOMY},
    {"tasks: a task and a thread give up", both_give_up, 3, 0, 0, ROOMY},
    {"far: tasks: a task and a thread give up", both_give_up, 3, 0, 0, FAR},
    {"tasks: one tries beside a task", one_tries_beside_a_task, 3, 0, 0, ROOMY},
    {"tasks: two tasks of one", two_tasks_of_one, 2, 0, 0, ROOMY},
    {"tasks: the first of two tasks gives up", first_of_two_gives_up, 2, 0, 0, ROOMY},
    {"far: tasks: the first of two tasks gives up", first_of_two_gives_up, 2, 0, 0, FAR},
    {"tasks: the second of two tasks gives up", second_of_two_gives_up, 2, 0, 0, ROOMY},
    {"far: tasks: the second of two tasks gives up", second_of_two_gives_up, 2, 0, 0, FAR},
    {"tasks: both of two tasks give up", both_of_two_give_up, 2, 0, 0, ROOMY},
    {"far: tasks: both of two tasks give up", both_of_two_give_up, 2, 0, 0, FAR},
    {"tasks: tasks until one shuts", tasks_until_shut, 3, 0, 0, ROOMY},
    {"far: tasks: tasks until one shuts", tasks_until_shut, 3, 0, 0, FAR},
    {"tasks: a task until one shuts", a_task_until_shut, 3, 0, 0, ROOMY},
    {"tasks: a task shuts", a_task_shuts, 3, 0, 0, ROOMY},
    {"tasks: the last task frees", last_task_frees, 2, 0, 0, ROOMY},
    {"tasks: the last of three tasks frees", last_task_frees, 3, 0, 0, ROOMY},
    {"tasks: the last of both frees", last_of_both_frees, 3, 0, 0, ROOMY},
    {"far: tasks: the last of both frees", last_of_both_frees, 3, 0, 0, FAR},
    {"tasks: the last that polls frees", last_that_polls_frees, 2, 0, 0, ROOMY},
    {"tasks: a task polls early", a_task_polls_early, 3, 0, 0, ROOMY},
    {"tasks: one closes beside a task", one_closes_beside_a_task, 3, 0, 0, ROOMY},
    {"tasks: one closes while both wait", closes_while_both_wait, 3, 0, 0, ROOMY},
    {"tasks: a task signals", a_task_signals, 3, 0, 0, ROOMY},
    {"tasks: turns in calls", has_task_turn_in_call, 3, 0, 0, ROOMY},
    {"tasks: turns in calls, and again", task_asks_again_in_call, 3, 0, 0, ROOMY},
    {"tasks: a call enters another lock", enters_another_in_call, 3, 0, 0, ROOMY},
    {"tasks: one waits while a call enters", waits_while_a_call_enters, 2, 0, 0, ROOMY},
    {"tasks: a task comes to a younger lock", a_task_comes_to_a_younger_lock, 3, 0, 0, ROOMY},
    {"barging: tasks: a task each", by_task, 3, 2, 0, ROOMY},
    {"barging: tasks: a task each, twice", by_task_twice, 2, 2, 0, ROOMY},
    {"barging: tasks: three tasks, twice", by_task_twice, 3, 2, 0, ROOMY},
    {"barging: tasks: one task gives up", one_task_gives_up, 3, 2, 0, ROOMY},
    {"barging: far: tasks: one task gives up", one_task_gives_up, 3, 2, 0, FAR},
    {"barging: tasks: a task beside threads", a_task_beside_threads, 3, 2, 0, ROOMY},
    {"barging: tasks: tasks beside a thread", tasks_beside_a_thread, 3, 2, 0, ROOMY},
    {"barging: tasks: a task beside threads, twice", a_task_beside_threads_twice, 2, 2, 0, ROOMY},
    {"barging: tasks: tasks beside a thread, twice", tasks_beside_a_thread_twice, 3, 2, 0, ROOMY},
    {"barging: tasks: a task beside one that yields", a_task_beside_one_that_yields, 3, 2, 0, ROOMY},
    {"barging: tasks: tasks beside one that yields", tasks_beside_one_that_yields, 3, 2, 0, ROOMY},
    {"barging: tasks: a task beside one that stays", a_task_beside_one_that_stays, 3, 2, 0, ROOMY},
    {"barging: tasks: a task gives up between threads", a_task_gives_up_between_threads, 3, 2, 0, ROOMY},
    {"barging: far: tasks: a task gives up between threads", a_task_gives_up_between_threads, 3, 2, 0, FAR},
    {"barging: tasks: a task gives up beside one that yields", a_task_gives_up_beside_one_that_yields, 3, 2, 0, ROOMY},
    {"barging: far: tasks: a task gives up beside one that yields", a_task_gives_up_beside_one_that_yields, 3, 2, 0,
     FAR},
    {"barging: tasks: a task gives up before one", a_task_gives_up_before_one_beside_one_that_yields, 3, 2, 0, ROOMY},
    {"barging: far: tasks: a task gives up before one", a_task_gives_up_before_one_beside_one_that_yields, 3, 2, 0,
     FAR},
    {"barging: tasks: a task gives up and asks again", a_task_gives_up_and_asks_again, 2, 2, 0, ROOMY},
    {"barging: far: tasks: a task gives up and asks again", a_task_gives_up_and_asks_again, 2, 2, 0, FAR},
    {"barging: tasks: a thread is late between tasks", a_thread_is_late_between_tasks, 3, 2, 0, ROOMY},
    {"barging: far: tasks: a thread is late between tasks", a_thread_is_late_between_tasks, 3, 2, 0, FAR},
    {"barging: tasks: a thread is late before a task", a_thread_is_late_before_a_task, 3, 2, 0, ROOMY},
    {"barging: far: tasks: a thread is late before a task", a_thread_is_late_before_a_task, 3, 2, 0, FAR},
    {"barging: tasks: a thread is late or a task waits", a_thread_is_late_or_a_task_waits, 3, 2, 0, ROOMY},
    {"barging: tasks: a task and a thread give up", both_give_up, 3, 2, 0, ROOMY},
    {"barging: far: tasks: a task and a thread give up", both_give_up, 3, 2, 0, FAR},
    {"barging: tasks: one tries beside a task", one_tries_beside_a_task, 3, 2, 0, ROOMY},
    {"barging: tasks: two tasks of one", two_tasks_of_one, 2, 2, 0, ROOMY},
    {"barging: tasks: the first of two tasks gives up", first_of_two_gives_up, 2, 2, 0, ROOMY},
    {"barging: far: tasks: the first of two tasks gives up", first_of_two_gives_up, 2, 2, 0, FAR},
    {"barging: tasks: the second of two tasks gives up", second_of_two_gives_up, 2, 2, 0, ROOMY},
    {"barging: far: tasks: the second of two tasks gives up", second_of_two_gives_up, 2, 2, 0, FAR},
    {"barging: tasks: both of two tasks give up", both_of_two_give_up, 2, 2, 0, ROOMY},
    {"barging: far: tasks: both of two tasks give up", both_of_two_give_up, 2, 2, 0, FAR},
    {"barging: tasks: tasks until one shuts", tasks_until_shut, 3, 2, 0, ROOMY},
    {"barging: far: tasks: tasks until one shuts", tasks_until_shut, 3, 2, 0, FAR},
    {"barging: tasks: a task until one shuts", a_task_until_shut, 3, 2, 0, ROOMY},
    {"barging: tasks: a task shuts", a_task_shuts, 3, 2, 0, ROOMY},
    {"barging: tasks: the last task frees", last_task_frees, 2, 2, 0, ROOMY},
    {"barging: tasks: the last of three tasks frees", last_task_frees, 3, 2, 0, ROOMY},
    {"barging: tasks: the last of both frees", last_of_both_frees, 3, 2, 0, ROOMY},
    {"barging: far: tasks: the last of both frees", last_of_both_frees, 3, 2, 0, FAR},
    {"barging: tasks: the last that polls frees", last_that_polls_frees, 2, 2, 0, ROOMY},
    {"barging: tasks: a task polls early", a_task_polls_early, 3, 2, 0, ROOMY},
    {"barging: tasks: one closes beside a task", one_closes_beside_a_task, 3, 2, 0, ROOMY},
    {"barging: tasks: one closes while both wait", closes_while_both_wait, 3, 2, 0, ROOMY},
    {"barging: tasks: a task signals", a_task_signals, 3, 2, 0, ROOMY},
    {"barging: tasks: turns in calls", has_task_turn_in_call, 3, 2, 0, ROOMY},
    {"barging: tasks: turns in calls, and again", task_asks_again_in_call, 3, 2, 0, ROOMY},
    {"barging: tasks: a call enters another lock", enters_another_in_call, 3, 2, 0, ROOMY},
    {"barging: tasks: one waits while a call enters", waits_while_a_call_enters, 2, 2, 0, ROOMY},
    {"barging: tasks: a task comes to a younger lock", a_task_comes_to_a_younger_lock, 3, 2, 0, ROOMY},
    {"tasks: a task shuts beside a waiter", a_task_shuts_beside_a_waiter, 2, 0, 0, ROOMY},
    {"barging: tasks: a task shuts beside a waiter", a_task_shuts_beside_a_waiter, 2, 2, 0, ROOMY},
    {"tasks: the last frees beside others' entries", last_frees_beside_entries, 3, 0, 0, ROOMY},
    {"barging: tasks: the last frees beside others' entries", last_frees_beside_entries, 3, 2, 0, ROOMY},
    {"barging limit 4: tasks: a task beside threads", a_task_beside_threads, 3, 4, 0, ROOMY},
    {"barging limit 4: tasks: a task beside one that yields once", a_task_beside_one_that_yields_once, 3, 4, 0, ROOMY},
    {"barging limit 4: tasks: tasks beside a thread", tasks_beside_a_thread, 3, 4, 0, ROOMY},
    {"barging limit 4: tasks: a task beside threads, twice", a_task_beside_threads_twice, 2, 4, 0, ROOMY},
    {"barging limit 3: tasks: a task beside one that stays", a_task_beside_one_that_stays, 3, 3, 0, ROOMY},
    {"barging limit 4: tasks: a task gives up and asks again", a_task_gives_up_and_asks_again, 2, 4, 0, ROOMY},
    {"tasks: no memory", a_task_finds_no_memory, 2, 0, 0, 15, MANY, MANY, NO_MEMORY},
    {"tasks: crowded", a_task_finds_no_memory, 2, 0, 0, 15, MANY, 0, 0},
    {"tasks: room for one sleeper", a_task_beside_one_that_yields, 3, 0, 0, 15, 1, MANY, 0},
    {"one enters until one shuts", enters_until_shut, 2, 0, 0, ROOMY},
    {"barging: one enters until one shuts", enters_until_shut, 2, 2, 0, ROOMY},
    {"who is told of a shut frees", told_of_a_shut_frees, 2, 0, 0, ROOMY},
    {"barging: who is told of a shut frees", told_of_a_shut_frees, 2, 2, 0, ROOMY},
    {"who is told of a shut frees at once", told_of_a_shut_frees_at_once, 2, 0, 0, ROOMY},
    {"barging: who is told of a shut frees at once", told_of_a_shut_frees_at_once, 2, 2, 0, ROOMY},
    {"who is told of a shut asks", told_of_a_shut_asks, 2, 0, 0, ROOMY},
    {"barging: who is told of a shut asks", told_of_a_shut_asks, 2, 2, 0, ROOMY},
    {"late while one stays in", is_late_while_one_stays_in, 2, 0, 0, ROOMY},
    {"far: late while one stays in", is_late_while_one_stays_in, 2, 0, 0, FAR},
    {"far: crowded: late while one stays in", is_late_while_one_stays_in, 2, 0, 0, 0, MANY, 0, 0},
    {"barging: late while one stays in", is_late_while_one_stays_in, 2, 2, 0, ROOMY},
    {"barging: far: crowded: late while one stays in", is_late_while_one_stays_in, 2, 2, 0, 0, MANY, 0, 0},
    {"late at a condition", is_late_at_a_condition, 2, 0, 0, ROOMY},
    {"barging: late at a condition", is_late_at_a_condition, 2, 2, 0, ROOMY},
    {"who waits longest at a condition is signalled", signals_in_order, 3, 0, 0, ROOMY},
    {"one signal, to one whose time is over", signals_whose_time_is_over, 3, 0, 0, ROOMY},
    {"one signal at two locks, one of which is shut", signals_at_two_locks, 3, 0, 0, ROOMY},
    {"barging: one signal at two locks, one of which is shut", signals_at_two_locks, 3, 2, 0, ROOMY},
    {"a broadcast at two locks, one of which is shut", broadcasts_at_two_locks, 3, 0, 0, ROOMY},
    {"barging: a broadcast at two locks, one of which is shut", broadcasts_at_two_locks, 3, 2, 0, ROOMY},
    {"far: tasks: one gives up far, before one near", gives_up_far_before_one_near, 2, 0, 0, 2, MANY, MANY, 0},
    {"tasks: one frees beside a task", one_frees_beside_a_task, 2, 0, 0, ROOMY},
    {"far: tasks: one frees beside a task", one_frees_beside_a_task, 2, 0, 0, FAR},
    {"barging: tasks: one frees beside a task", one_frees_beside_a_task, 2, 2, 0, ROOMY},
    {"barging: far: tasks: one frees beside a task", one_frees_beside_a_task, 2, 2, 0, FAR},
    {"who waits behind one that was signalled is told of a shut", shuts_behind_a_signal, 3, 0, 0, ROOMY},
    {"barging: who waits behind one that was signalled is told of a shut", shuts_behind_a_signal, 3, 2, 0, ROOMY},
    {"who signals waits", signals_and_waits, 2, 0, 0, ROOMY},
    {"barging: who signals waits", signals_and_waits, 2, 2, 0, ROOMY},
    {"who is signalled waits again", waits_again, 2, 0, 0, ROOMY},
    {"tasks: the task that is told of a shut asks elsewhere", asks_elsewhere_by_the_task_that_was_told, 2, 0, 0, ROOMY},
    {"barging: tasks: the task that is told of a shut asks elsewhere", asks_elsewhere_by_the_task_that_was_told, 2, 2,
     0, ROOMY},
    {"far: tasks: two behind one that is late", two_tasks_behind_one_that_is_late, 3, 0, 0, FAR},
    {"tasks: one goes on with two at two locks", waits_for_two, 3, 0, 0, ROOMY},
    {"tasks: one polls for two at two locks", polls_for_two, 3, 0, 0, ROOMY},
    {"after many turns: far: two are late", is_late, 3, 0, 0, FAR},
    {"after many turns: tasks: one task gives up", one_task_gives_up, 3, 0, 0, ROOMY},
    {"after many turns: barging: tasks: a task gives up beside one that yields", a_task_gives_up_beside_one_that_yields,
     3, 2, 0, ROOMY},
    {"no memory: late once it is near", is_late_once_it_is_near, 3, 0, 0, 1, MANY, MANY, NO_MEMORY},
    {"tasks: two tasks, room for one sleeper", tasks_beside_one_that_yields, 3, 0, 0, 15, 1, MANY, 0},
    {"tasks: the task that left enters in the call", enters_by_the_task_that_left, 2, 0, 0, ROOMY},
    {"barging: tasks: the task that left enters in the call", enters_by_the_task_that_left, 2, 2, 0, ROOMY},
    {"tasks: the task that is told of a shut asks in the call", asks_by_the_task_that_was_told, 2, 0, 0, ROOMY},
    {"barging: tasks: the task that is told of a shut asks in the call", asks_by_the_task_that_was_told, 2, 2, 0,
     ROOMY},
    {"yields: three enter", enters, 3, 0, 0, ROOMY},
    {"yields: two of three yield", two_yield, 3, 0, 0, ROOMY},
    {"yields: two are late and come again", is_late_and_comes_again, 3, 0, 0, ROOMY},
    {"yields: two look in", looks_in, 3, 0, 0, ROOMY},
    {"yields: one tries", tries, 3, 0, 0, ROOMY},
    {"yields: one shuts", shuts, 3, 0, 0, ROOMY},
    {"yields: the last frees, and each yields", last_frees_and_yields, 3, 0, 0, ROOMY},
    {"yields: one closes", one_closes, 2, 0, 0, ROOMY},
    {"barging: asks: three enter twice", enters_twice, 3, 4, 0, ROOMY},
    {"barging: asks: two of three yield", two_yield, 3, 4, 0, ROOMY},
    {"barging: asks: one stays", one_stays, 3, 4, 0, ROOMY},
    {"barging: asks: two are late beside one that yields", two_late_beside_one_that_yields, 3, 4, 0, ROOMY},
    {"barging: asks: one shuts", shuts, 3, 4, 0, ROOMY},
    {"barging: asks: the last frees, and each yields", last_frees_and_yields, 3, 4, 0, ROOMY},
    {"barging: asks: tasks: a task beside threads", a_task_beside_threads, 3, 4, 0, ROOMY},
    {"barging: spins: asks: three enter twice", enters_twice, 3, 4, 0, ROOMY},
    {"barging: spins: asks: two are late beside one that yields", two_late_beside_one_that_yields, 3, 4, 0, ROOMY},
    {"barging: spins: asks: late while one stays in", is_late_while_one_stays_in, 2, 4, 0, ROOMY},
    {"barging: spins: asks: two are late and come again", is_late_and_comes_again, 3, 4, 0, ROOMY},
    {"barging: spins: each enters, at the first use", enters, 2, 2, 1, ROOMY},
    {"barging: spins: three enter", enters, 3, 2, 0, ROOMY},
    {"barging: spins: three enter twice", enters_twice, 3, 2, 0, ROOMY},
    {"barging: spins: two enter thrice", enters_thrice, 2, 4, 0, ROOMY},
    {"barging: spins: two of three yield", two_yield, 3, 2, 0, ROOMY},
    {"barging: spins: one yields", one_yields, 3, 4, 0, ROOMY},
    {"barging: spins: one stays", one_stays, 3, 2, 0, ROOMY},
    {"barging: spins: two are late", is_late, 3, 2, 0, ROOMY},
    {"barging: spins: two are late beside one that yields", two_late_beside_one_that_yields, 3, 3, 0, ROOMY},
    {"barging: spins: far: two are late beside one that yields", two_late_beside_one_that_yields, 3, 3, 0, FAR},
    {"barging: spins: crowded: two are late beside one that yields", two_late_beside_one_that_yields, 3, 3, 0, CROWDED},
    {"barging: spins: late while one stays in", is_late_while_one_stays_in, 2, 2, 0, ROOMY},
    {"barging: spins: two look in", looks_in, 3, 2, 0, ROOMY},
    {"barging: spins: one tries", tries, 3, 2, 0, ROOMY},
    {"barging: spins: the last tries", last_tries, 3, 2, 0, ROOMY},
    {"barging: spins: one shuts", shuts, 3, 2, 0, ROOMY},
    {"barging: spins: one shuts and asks", shuts_and_asks, 3, 2, 0, ROOMY},
    {"barging: spins: one shuts and closes", shuts_and_closes, 2, 2, 0, ROOMY},
    {"barging: spins: one enters until one shuts", enters_until_shut, 2, 2, 0, ROOMY},
    {"barging: spins: the last frees", last_frees, 3, 2, 0, ROOMY},
    {"barging: spins: the last frees, and each yields", last_frees_and_yields, 3, 2, 0, ROOMY},
    {"barging: spins: the last frees beside one that is late", last_frees_beside_one_that_is_late, 3, 2, 0, ROOMY},
    {"barging: spins: one closes", one_closes, 2, 2, 0, ROOMY},
    {"barging: spins: one frees", one_frees, 2, 2, 0, ROOMY},
    {"barging: spins: one closes beside a holder", one_closes_beside_a_holder, 2, 2, 0, ROOMY},
    {"barging: spins: two wait at a condition, one not for ever", waits, 3, 2, 0, ROOMY},
    {"barging: spins: two wait at a condition until one shuts", waits_until_shut, 3, 2, 0, ROOMY},
    {"barging: spins: one closes beside a waiter", one_closes_beside_a_waiter, 2, 2, 0, ROOMY},
    {"barging: spins: enters again", enters_again, 2, 2, 0, ROOMY},
    {"barging: spins: tasks: a task beside threads", a_task_beside_threads, 3, 2, 0, ROOMY},
    {"barging: spins: tasks: a task beside one that yields", a_task_beside_one_that_yields, 3, 2, 0, ROOMY},
    {"barging: spins: tasks: one closes beside a task", one_closes_beside_a_task, 3, 2, 0, ROOMY},
    {NULL, NULL, 0, 0, 0, 0, 0, 0, 0},
};

/* A lock begins at any multiple of 16: each in another place of its cache lines, and the first of each scene, too. */
static qolb_lock *unopened(const struct scene *scene, int k) {
    enum { PLACES = 4, PLACE = 16 };
    char *block = model_malloc(sizeof(qolb_lock) + PLACES * PLACE);
    qolb_lock *lock = (qolb_lock *)(block + PLACE * ((scene - scenes + k) % PLACES));
    if (k == 0) it.block = block;
    *lock = (qolb_lock)QOLB_LOCK_INIT_BARGING(scene->barging);
    return lock;
}

/* As if many turns had ended: the rounds in the cells began anew, and have their highest bits. */
UNSEEN static void had_many_turns(struct lock *lock) {
    uint64_t rounds = (uint64_t)7 << (64 - LAYOUT_ROUNDS_BIT - 2);
    words_of(lock)[LAYOUT_TAIL_WORD] += rounds * TICKETS_IN_ROUND;
    for (int k = 0; k < TICKETS_IN_ROUND; k++) words_of(lock)[LAYOUT_FIRST_CELL + k] += rounds << LAYOUT_ROUNDS_BIT;
}

void set_up(const struct scene *scene) {
    memset(&it, 0, sizeof it), memset(order, 0, sizeof order);
    memset(owns, 0, sizeof owns), memset(head_of, 0, sizeof head_of);
    memset(handed_over, 0, sizeof handed_over), entries.many = 0;
    time_of_order = 0, it.users = scene->threads, model_near = scene->near, model_sleepers = scene->sleepers,
    model_open = scene->open;
    model_memory = !scene->no_memory, for_second = 0, model_tries = strncmp(scene->name, "one try", 7) ? 2 : 1;
    model_barges = strstr(scene->name, "spins: ") ? BARGE_PAUSE * 3 : 0;
    model_patience = strstr(scene->name, "asks: ") ? 0 : WATCH_PAUSE * 2;
    model_processors = strstr(scene->name, "yields: ") ? 1 : THREADS;
    for (int k = 0; k < LOCKS; k++) {
        it.locks[k] = unopened(scene, k);
        if (!scene->at_first_use) MUST(qolb_lock_open(it.locks[k], scene->barging) == QOLB_DONE);
        if (!strncmp(scene->name, "after many turns", 16)) had_many_turns(lock_of(it.locks[k]));
    }
    it.lock = it.locks[0];
    entries.lock = scene->does == late_with_memory_by_a_lock ? it.locks[2] : NULL;
}

/* Nobody is counted or withdrawn at any cell, waits, is without a ticket in a call, or holds. */
UNSEEN static void check_lock(struct lock *lock) {
    for (int k = 0; k < TICKETS_IN_ROUND; k++) MUST((uint32_t)words_of(lock)[LAYOUT_FIRST_CELL + k] == 0);
    MUST(!lock->waits && *(unsigned *)&lock->without_ticket == 0 && *(uint64_t *)&lock->beyond_by == 0);
}

/* No callback is in a list, no call is being made, and no entry is counted. */
UNSEEN static void check_callbacks(void) {
    for (struct task_row *row = qolb_task_rows_; row < qolb_task_rows_ + TASK_ROWS; row++) {
        struct callbacks *of = &row->callbacks;
        MUST(!*(struct callback **)&of->first && !of->running && *(unsigned *)&of->guard == 0);
        MUST(*(unsigned *)&of->others == 0 && *(unsigned *)&of->waiting == 0);
    }
    MUST(*(unsigned *)&qolb_abandoned_.of[0].many == 0 && *(unsigned *)&qolb_tasks_.of[0].many == 0);
}

/* All threads have ended. */
void check_end(const struct scene *scene) {
    static const struct {
        void (*does)(int);
        int turns;
    } each[] = {{enters, 1}, {enters_twice, 2}, {enters_thrice, 3}, {two_yield, 1}, {one_yields, 1}, {holds_three, 1}};
    for (size_t k = 0; k < sizeof each / sizeof each[0]; k++)
        MUST(scene->does != each[k].does || it.turns == each[k].turns * scene->threads);
    MUST(scene->does != one_stays || it.turns == 6);
    MUST(it.inside == 0 && it.cond.own == NULL && it.other.own == NULL);
    MUST(scene->does != looks_in || entries.many == 0);
    for (int k = 0; k < LOCKS; k++) {
        qolb_lock *lock = k ? it.locks[k] : it.lock;
        if (!lock) continue;
        if (lock->own) check_lock(lock_of(lock));
        MUST(qolb_lock_destroy(lock) == QOLB_DONE && lock->own == NULL);
    }
    check_callbacks();
    for (int k = 0; k < entries.many; k++) must(was_freed(entries.at[k]), "an entry is not freed");
}

UNSEEN int is_own(uintptr_t at) {
    return at - (uintptr_t)owns < sizeof owns || at - (uintptr_t)&qolb_core_arena_ < sizeof qolb_core_arena_ ||
           at - (uintptr_t)&qolb_learned_ < sizeof qolb_learned_ || at - (uintptr_t)&errno < sizeof errno;
}

void change_thread(struct own_data *from, const struct own_data *to) { (void)from, (void)to; }
