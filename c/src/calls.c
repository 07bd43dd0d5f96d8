/* The library's calls on nodes. Each of them makes the proved call of the same name (proved.h); a call that releases
 * the line then wakes the next holder (line.h). This file also contains the calls that wait for a node's turn, and
 * those that register a callback (callbacks.h).
 *
 * line.c opens lines and frees nodes. Only these two calls write to a handle, so the handles of different threads may
 * be adjacent in memory. This file is tested and model-checked, but not proved. */
#define _GNU_SOURCE
#include "hints.h"
#include "line.h"
#include "probes.h"
#include "spin.h"

/* The longest sleep of a thread whose node is busy, in nanoseconds. No call wakes it. */
enum { LONGEST_NAP = 200000 };

/* An address for each label, for the tools that qolb.h tells of grants and releases. */
extern char qolb_lines_[1021];
char qolb_lines_[1021];

/* ---- Releasing a line ---- */

/* Wakes all threads that sleep at the place. */
static void wake_at(struct place *place) {
    if (!atomic_load(&place->sleepers)) return;
    atomic_fetch_add(&place->word, 1);
    qolb_wake_at_(&place->word, INT32_MAX);
}

/* Wakes the next holder, and the waiter behind it, whose wake-up then overlaps the holder's critical section. A
 * callback is called last, because it may take a while. */
__attribute__((noinline)) static uint32_t woken(struct node *my, uint32_t got) {
    struct line *line = my->line;
    struct qolb_look look = look_at(my);
    wake_at(place_at(line, look.went_to));
    wake_at(place_at(line, look.went_ahead));
    if (atomic_load(&line->callbacks.first)) qolb_make_call_(&line->callbacks, look.went_to);
    return got;
}

/* Ends a call that released the line, unless it was a misuse: wakes the threads that have to be woken. The load takes
 * place after the release, because the proved call hands the line over by an instruction that no later load overtakes.
 */
static inline uint32_t let_go(struct node *my, uint32_t got) {
    return atomic_load(&my->line->callbacks.waiting) && got != QOLB_MISUSE ? woken(my, got) : got;
}

/* Ends any other call. A node that is told that the line is closed has passed the line on, so it wakes as well. */
static inline uint32_t told(struct node *my, uint32_t got) { return got == QOLB_CLOSED ? let_go(my, got) : got; }

/* Ends a call that makes a request which was not granted the line. In the function of a notification, a node may stay
 * busy until another notification, which this thread has put off, has released its line. Therefore the notifications
 * that are put off are made here. Not inlined, so that a call that is granted the line saves no registers for it. */
__attribute__((noinline)) static uint32_t not_granted(struct node *my, uint32_t got) {
    if (got == QOLB_BUSY) qolb_make_put_off_();
    return told(my, got);
}

/* Ends a call that makes a request. */
static inline uint32_t asked(struct node *my, uint32_t got) { return got == QOLB_GRANTED ? got : not_granted(my, got); }

enum qolb_result qolb_enqolb(qolb_node *node) {
    struct node *my = node_of(node);
    return my ? asked(my, qolb_enqolb_proved_(&my->proved)) : (uint32_t)QOLB_MISUSE;
}

enum qolb_result qolb_poll(qolb_node *node) {
    struct node *my = node_of(node);
    return my ? told(my, qolb_poll_proved_(&my->proved)) : (uint32_t)QOLB_MISUSE;
}

enum qolb_result qolb_withdraw(qolb_node *node) {
    struct node *my = node_of(node);
    return my ? told(my, qolb_withdraw_proved_(&my->proved)) : (uint32_t)QOLB_MISUSE;
}

enum qolb_result qolb_prepend(qolb_node *node) {
    struct node *my = node_of(node);
    return my ? asked(my, qolb_prepend_proved_(&my->proved)) : (uint32_t)QOLB_MISUSE;
}

enum qolb_result qolb_link(qolb_node *node) {
    struct node *my = node_of(node);
    return my ? told(my, qolb_link_proved_(&my->proved)) : (uint32_t)QOLB_MISUSE;
}

enum qolb_result qolb_deqolb(qolb_node *node) {
    struct node *my = node_of(node);
    if (!my) return QOLB_MISUSE;
    if (my->line->kind == QOLB_LINK) hint_release(my);
    return let_go(my, qolb_deqolb_proved_(&my->proved));
}

enum qolb_result qolb_shut(qolb_node *node) {
    struct node *my = node_of(node);
    return my ? let_go(my, qolb_shut_proved_(&my->proved)) : (uint32_t)QOLB_MISUSE;
}

enum qolb_result qolb_spin(qolb_node *node, uint64_t polls) {
    struct node *my = node_of(node);
    return my ? told(my, qolb_wait_proved_(&my->proved, polls)) : (uint32_t)QOLB_MISUSE;
}

enum qolb_result qolb_settle_node(qolb_node *node) {
    struct node *my = node_of(node);
    return my ? asked(my, qolb_clear_proved_(&my->proved)) : (uint32_t)QOLB_MISUSE;
}

/* ---- Waiting for a turn ---- */

static inline struct probed of_node(struct node *my) {
    struct qolb_look look = look_at(my);
    return (struct probed){look.label, look.number, (uintptr_t)my->line};
}

/* Returns an upper bound on the nodes before one that waits: all others, if the line has few nodes, and otherwise that
 * it is unknown. */
static uint64_t most_before(const struct node *my) {
    uint32_t others = my->line->nodes - 1;
    return others < 2 * processors() ? others : UNKNOWN_TURNS;
}

/* Polls until it is time to sleep, or the timeout has expired. It polls at least once. Returns GRANTED, CLOSED or
 * WAITING. */
static uint32_t spin(struct node *my, const char *slot, const struct limit *limit, struct spin *spun) {
    uint64_t before = most_before(my);
    for (;;) {
        hint_turn(my, slot);
        uint32_t got = qolb_poll_proved_(&my->proved);
        if (got != QOLB_WAITING || !left(limit) || !qolb_spin_once_(spun, before)) return got;
    }
}

/* Sleeps at the node's place. It polls once between counting itself as a sleeper and the sleep. */
static uint32_t sleep_at_place(struct node *my, struct place *place, const struct limit *limit) {
    atomic_fetch_add(&place->sleepers, 1);
    atomic_fetch_add(&my->line->callbacks.waiting, 1);
    unsigned word = atomic_load(&place->word);
    uint32_t got = qolb_poll_proved_(&my->proved);
    uint64_t time = got == QOLB_WAITING ? left(limit) : 0;
    if (time) {
        PROBE(sleep, of_node(my));
        qolb_sleep_at_(&place->word, word, time);
        PROBE(wake, of_node(my));
    }
    atomic_fetch_sub(&my->line->callbacks.waiting, 1);
    atomic_fetch_sub(&place->sleepers, 1);
    return got;
}

static uint32_t give_up_turn(struct node *my) {
    uint32_t got = qolb_withdraw_proved_(&my->proved);
    return got == QOLB_WITHDRAWN ? (uint32_t)QOLB_TIMEDOUT : got;
}

/* Waits until the request is at its turn. Until then the node's word, and therefore its place, does not change. Returns
 * GRANTED, CLOSED or TIMEDOUT. */
static uint32_t await_turn(struct node *my, const struct limit *limit) {
    uint64_t word = look_at(my).wait_word;
    const char *slot = slot_at(my, word);
    struct spin spun = {.yields_from = YIELD_UNSURE};
    for (;;) {
        uint32_t got = spin(my, slot, limit, &spun);
        if (got == QOLB_WAITING && left(limit)) got = sleep_at_place(my, place_at(my->line, word), limit);
        if (got != QOLB_WAITING) return got;
        if (left(limit) == 0) return give_up_turn(my);
    }
}

static void nap_busy(uint64_t most) {
    atomic_uint nobody_wakes = 0;
    qolb_sleep_at_(&nobody_wakes, 0, most < LONGEST_NAP ? most : LONGEST_NAP);
}

/* Repeats the request while the node is busy. Returns the last result, or TIMEDOUT. */
static uint32_t ask_again(struct node *my, const struct limit *limit) {
    struct spin spun = {0};
    uint32_t got = QOLB_BUSY;
    for (int naps = 0; got == QOLB_BUSY;) {
        uint64_t time = left(limit);
        if (time == 0) return QOLB_TIMEDOUT;
        if (naps || !qolb_spin_once_(&spun, UNKNOWN_TURNS)) naps = 1, nap_busy(time);
        got = qolb_enqolb_proved_(&my->proved);
    }
    return got;
}

/* Goes on with a call that waits, if the line was not granted at once: waits while the node is busy or its request
 * waits. */
__attribute__((noinline)) static uint32_t acquired(struct node *my, uint32_t got, struct limit limit) {
    if (got == QOLB_BUSY || got == QOLB_QUEUED) {
        PROBE(wait, of_node(my));
        if (got == QOLB_BUSY) got = ask_again(my, &limit);
        if (got == QOLB_QUEUED) got = await_turn(my, &limit);
        PROBE_END(got, of_node(my));
    }
    return told(my, got);
}

static inline uint32_t acquire(qolb_node *node, uint64_t nanoseconds) {
    struct node *my = node_of(node);
    if (!my) return QOLB_MISUSE;
    struct limit limit = from_now(nanoseconds);
    uint32_t got = qolb_enqolb_proved_(&my->proved);
    return got == QOLB_GRANTED ? got : acquired(my, got, limit);
}

enum qolb_result qolb_acquire(qolb_node *node) { return acquire(node, FOR_EVER); }

enum qolb_result qolb_acquire_within(qolb_node *node, uint64_t nanoseconds) { return acquire(node, nanoseconds); }

/* ---- Having a callback made (callbacks.h) ---- */

/* Puts the callback into the line's list and polls. The callback will be called if the result is WAITING, and only
 * then. */
static uint32_t want_call(struct node *my) {
    struct callbacks *of = &my->line->callbacks;
    qolb_tell_release_(&my->callback);
    take_guard(&of->guard);
    qolb_put_in_list_(of, &my->callback);
    uint32_t got = qolb_poll_proved_(&my->proved);
    if (got != QOLB_WAITING) qolb_take_out_of_list_(of, &my->callback);
    return_guard(&of->guard);
    return got;
}

enum qolb_result qolb_notify(qolb_node *node, void (*call)(void *), void *arg) {
    struct node *my = node_of(node);
    struct qolb_look look = my ? look_at(my) : (struct qolb_look){0};
    if (!call || look.state != QOLB_STATE_QUEUED) return QOLB_MISUSE;
    qolb_notify_off(node);
    my->callback.key = look.wait_word;
    my->callback.call = call;
    my->callback.arg = arg;
    uint32_t got = want_call(my);
    if (got != QOLB_WAITING) my->callback.call = NULL;
    return told(my, got);
}

enum qolb_result qolb_notify_off(qolb_node *node) {
    struct node *my = node_of(node);
    if (!my) return QOLB_MISUSE;
    if (!my->callback.call) return QOLB_DONE;
    uint32_t got = qolb_unlist_(&my->line->callbacks, &my->callback);
    my->callback.call = NULL;
    return got;
}

enum qolb_result qolb_notify_fd(qolb_node *node, int fd) {
    return fd < 0 ? (uint32_t)QOLB_MISUSE : qolb_notify(node, qolb_add_to_descriptor_, (void *)(intptr_t)fd);
}

/* ---- The others ---- */

enum qolb_result qolb_read(qolb_node *node, qolb_bytes *out) {
    struct node *my = node_of(node);
    return my ? qolb_read_proved_(&my->proved, out) : (uint32_t)QOLB_MISUSE;
}

enum qolb_result qolb_write(qolb_node *node, uint64_t mask, const qolb_bytes *bytes) {
    struct node *my = node_of(node);
    return my ? qolb_write_proved_(&my->proved, mask, bytes) : (uint32_t)QOLB_MISUSE;
}

enum qolb_result qolb_read_lane(qolb_node *node, uint64_t lane, uint64_t *out) {
    struct node *my = node_of(node);
    return my ? qolb_read_lane_proved_(&my->proved, lane, out) : (uint32_t)QOLB_MISUSE;
}

enum qolb_result qolb_write_lane(qolb_node *node, uint64_t lane, uint64_t value) {
    struct node *my = node_of(node);
    return my ? qolb_write_lane_proved_(&my->proved, lane, value) : (uint32_t)QOLB_MISUSE;
}

enum qolb_result qolb_add_lane(qolb_node *node, uint64_t lane, uint64_t by, uint64_t *was) {
    struct node *my = node_of(node);
    return my ? qolb_add_lane_proved_(&my->proved, lane, by, was) : (uint32_t)QOLB_MISUSE;
}

uint64_t qolb_turns_left(qolb_node *node) {
    struct node *my = node_of(node);
    return my ? look_at(my).turns_left : 0;
}

uint64_t qolb_number(qolb_node *node) {
    struct node *my = node_of(node);
    return my ? look_at(my).number : 0;
}

uint64_t qolb_label(qolb_node *node) {
    struct node *my = node_of(node);
    return my ? look_at(my).label : 0;
}

uint32_t qolb_state(qolb_node *node) {
    struct node *my = node_of(node);
    return my ? look_at(my).state : (uint32_t)QOLB_STATE_EMPTY;
}

/* The library that a program runs with may have another version than the header that it was compiled with. */
uint32_t qolb_version(void) { return QOLB_VERSION; }
