/* Makes random calls on lines and locks with one thread, and compares every result, state, byte, count and name with
 * those of a model in plain C.
 *
 *   build/model [CALLS [SEED]]        300,000 calls, seed 1
 *
 * Prints only the first difference. The model is written from qolb.h: it is a queue of requests, and the first request
 * that is not withdrawn has the turn. The line is with the first request, or at home if there is no request. In a link
 * line, the line stays with the last request that ended until the successor has linked itself. */
#include <qolb.h>
#include <stdio.h>
#include <stdlib.h>
#include <string.h>

enum { MOST = 200, NOBODY = 0 };

/* The state of the model: that of each node, numbered from 1, and that of the line. */
struct node {
    uint32_t state;
    int busy;
};

struct request {
    unsigned node;
    int withdrawn, unlinked;
};

static struct line {
    uint32_t kind;
    uint64_t label, nodes, turns; /* `turns` is the number of acquisitions left, or QOLB_NO_LEASE */
    uint8_t byte[64];
    int closed;
    struct node node[MOST + 1];
    struct request queue[MOST];
    unsigned waiting;   /* the number of requests in the queue */
    unsigned lies_with; /* in a link line, the node that has released it, while the first request is not linked */
} model;

static qolb_node handle[MOST + 1];
static uint64_t seed, calls, done;

static uint64_t draw(uint64_t below) {
    seed += 0x9e3779b97f4a7c15;
    uint64_t z = seed;
    z = (z ^ z >> 30) * 0xbf58476d1ce4e5b9;
    z = (z ^ z >> 27) * 0x94d049bb133111eb;
    return (z ^ z >> 31) % below;
}

static void differ(const char *call, unsigned node, uint64_t got, uint64_t wanted) {
    printf("call %llu, %s, node %u of %llu, kind %u: got %llu (%s), wanted %llu (%s)\n", (unsigned long long)done, call,
           node, (unsigned long long)model.nodes, model.kind, (unsigned long long)got, qolb_result_name((uint32_t)got),
           (unsigned long long)wanted, qolb_result_name((uint32_t)wanted));
    exit(1);
}

#define SAME(call, node, wanted)                             \
    do {                                                     \
        uint64_t want_ = (wanted), got_ = (call);            \
        if (got_ != want_) differ(#call, node, got_, want_); \
    } while (0)

/* ---- The model ---- */

static int may_ask(unsigned n) {
    uint32_t s = model.node[n].state;
    return s == QOLB_STATE_IDLE || s == QOLB_STATE_LEFT || s == QOLB_STATE_ROLLED || s == QOLB_STATE_SHUT;
}

static void drop_first(void) { memmove(model.queue, model.queue + 1, --model.waiting * sizeof model.queue[0]); }

/* Ends the first request, and hands the line over, past withdrawn requests, as far as the requests are linked. */
static void goes_on(void) {
    unsigned from = model.queue[0].node;
    drop_first();
    while (model.waiting && !model.queue[0].unlinked && model.queue[0].withdrawn) {
        model.node[from = model.queue[0].node].busy = 0;
        drop_first();
    }
    if (model.waiting && model.queue[0].unlinked) {
        model.lies_with = from;
        model.node[from].busy = 1;
    }
}

/* Ends the node's request, after which the node is in this state. */
static void ends(unsigned n, uint32_t state) {
    goes_on();
    model.node[n].state = model.lies_with == n ? (uint32_t)QOLB_STATE_LEFT : state;
}

/* Grants the line to the node whose request is the first, or tells the node that the line is closed. */
static uint32_t comes(unsigned n) {
    if (!model.closed) {
        model.node[n].state = QOLB_STATE_HOLDING;
        return QOLB_GRANTED;
    }
    ends(n, QOLB_STATE_SHUT);
    return QOLB_CLOSED;
}

static int has_turn(unsigned n) { return model.queue[0].node == n && model.lies_with == NOBODY; }

static uint32_t asks(unsigned n, int in_halves) {
    if (!may_ask(n) || (in_halves && model.kind != QOLB_LINK)) return QOLB_MISUSE;
    if (model.node[n].busy) return QOLB_BUSY;
    int behind = model.waiting > 0;
    model.queue[model.waiting++] = (struct request){n, 0, behind && in_halves};
    if (!behind) return comes(n);
    model.node[n].state = in_halves ? QOLB_STATE_LINKING : QOLB_STATE_QUEUED;
    return in_halves ? QOLB_LINKING : QOLB_QUEUED;
}

static uint32_t links(unsigned n) {
    if (model.node[n].state != QOLB_STATE_LINKING) return QOLB_MISUSE;
    unsigned place = 0;
    while (model.queue[place].node != n) place++;
    model.queue[place].unlinked = 0;
    model.node[n].state = QOLB_STATE_QUEUED;
    if (place > 0 || model.lies_with == NOBODY) return QOLB_QUEUED;
    model.node[model.lies_with].busy = 0;
    model.lies_with = NOBODY;
    return comes(n);
}

/* Settles a node. A node of a link line that is not busy is afterwards like one that has made no request. */
static uint32_t clears(unsigned n) {
    if (!may_ask(n)) return QOLB_MISUSE;
    if (model.node[n].busy) return QOLB_BUSY;
    if (model.kind == QOLB_LINK && model.node[n].state != QOLB_STATE_SHUT) model.node[n].state = QOLB_STATE_IDLE;
    return QOLB_DONE;
}

static uint32_t polls(unsigned n) {
    if (model.node[n].state != QOLB_STATE_QUEUED) return QOLB_MISUSE;
    return has_turn(n) ? comes(n) : (uint32_t)QOLB_WAITING;
}

static uint32_t withdraws(unsigned n) {
    if (model.node[n].state != QOLB_STATE_QUEUED) return QOLB_MISUSE;
    if (has_turn(n)) return comes(n);
    unsigned place = 0;
    while (model.queue[place].node != n) place++;
    model.queue[place].withdrawn = 1;
    model.node[n].busy = 1;
    model.node[n].state = QOLB_STATE_ROLLED;
    return QOLB_WITHDRAWN;
}

static uint32_t releases(unsigned n, int shut) {
    if (model.node[n].state != QOLB_STATE_HOLDING) return QOLB_MISUSE;
    int last = model.turns == 1;
    if (model.turns != QOLB_NO_LEASE) model.turns--;
    if (shut || last) model.closed = 1;
    ends(n, model.closed ? QOLB_STATE_SHUT : QOLB_STATE_IDLE);
    return QOLB_DONE;
}

static uint32_t closes(unsigned n) {
    if (!may_ask(n)) return QOLB_MISUSE;
    model.node[n].state = QOLB_STATE_EMPTY;
    return QOLB_DONE;
}

/* The calls that the header or the library makes of several others. */
static uint32_t tries(unsigned n, uint32_t late) {
    uint32_t got = asks(n, 0);
    if (got == QOLB_BUSY) return late;
    if (got != QOLB_QUEUED) return got;
    got = withdraws(n);
    return got == QOLB_WITHDRAWN ? late : got;
}

/* ---- The calls ---- */

static void reads_and_writes(unsigned n) {
    int holds = model.node[n].state == QOLB_STATE_HOLDING;
    uint64_t lane = draw(9), value = draw(UINT64_MAX), out = 77, mask = draw(UINT64_MAX);
    int may = holds && lane < 8;
    uint32_t told = holds ? QOLB_DONE : QOLB_MISUSE, of_lane = may ? QOLB_DONE : QOLB_MISUSE;
    qolb_bytes line, seen;
    for (int k = 0; k < 64; k++) line.byte[k] = (uint8_t)draw(256);
    memset(seen.byte, 0x5a, 64);
    switch (draw(5)) {
    case 0:
        SAME(qolb_write(&handle[n], mask, &line), n, told);
        for (int k = 0; k < 64; k++)
            if (holds && mask >> k & 1) model.byte[k] = line.byte[k];
        break;
    case 1:
        SAME(qolb_write_lane(&handle[n], lane, value), n, of_lane);
        for (int k = 0; may && k < 8; k++) model.byte[8 * lane + k] = (uint8_t)(value >> 8 * k);
        break;
    case 2:
        SAME(qolb_read(&handle[n], &seen), n, told);
        for (int k = 0; k < 64; k++) SAME(seen.byte[k], n, holds ? model.byte[k] : 0x5a);
        break;
    case 3:
        SAME(qolb_add_lane(&handle[n], lane, value, &out), n, of_lane);
        for (int k = 0; k < 8; k++) SAME(out >> 8 * k & 0xff, n, may ? model.byte[8 * lane + k] : k ? 0 : 77);
        for (unsigned k = 0, carry = 0; may && k < 8; k++) {
            carry += model.byte[8 * lane + k] + (uint8_t)(value >> 8 * k);
            model.byte[8 * lane + k] = (uint8_t)carry;
            carry >>= 8;
        }
        break;
    default:
        SAME(qolb_read_lane(&handle[n], lane, &out), n, of_lane);
        for (int k = 0; k < 8; k++) SAME(out >> 8 * k & 0xff, n, may ? model.byte[8 * lane + k] : k ? 0 : 77);
    }
}

static void ask_somehow(unsigned n) {
    int at_once = may_ask(n) && !model.node[n].busy && !model.waiting;
    switch (draw(8)) {
    case 0: SAME(qolb_try(&handle[n]), n, tries(n, QOLB_BUSY)); break;
    case 1: SAME(qolb_acquire_within(&handle[n], draw(2) * 300), n, tries(n, QOLB_TIMEDOUT)); break;
    case 2: /* it would wait for ever, so it is made only if it need not or must not wait */
        if (at_once || !may_ask(n)) SAME(qolb_acquire(&handle[n]), n, asks(n, 0));
        break;
    case 3:
    case 4: SAME(qolb_prepend(&handle[n]), n, asks(n, 1)); break;
    default: SAME(qolb_enqolb(&handle[n]), n, asks(n, 0));
    }
}

static void call(unsigned n) {
    uint64_t some = draw(3);
    switch (draw(13)) {
    case 0:
    case 1:
    case 2: ask_somehow(n); break;
    case 3: SAME(qolb_poll(&handle[n]), n, polls(n)); break;
    case 4: SAME(qolb_spin(&handle[n], some), n, some ? polls(n) : (uint32_t)QOLB_MISUSE); break;
    case 5:
        if (draw(3)) break;
        SAME(qolb_withdraw(&handle[n]), n, withdraws(n));
        break;
    case 6:
    case 7: SAME(qolb_link(&handle[n]), n, links(n)); break;
    case 8:
    case 9: SAME(qolb_deqolb(&handle[n]), n, releases(n, 0)); break;
    case 10:
        if (draw(40) == 0) SAME(qolb_shut(&handle[n]), n, releases(n, 1));
        if (draw(60) == 0) SAME(qolb_node_free(&handle[n]), n, closes(n));
        break;
    case 11: SAME(qolb_settle_node(&handle[n]), n, clears(n)); break;
    default: reads_and_writes(n);
    }
    int there = model.node[n].state != QOLB_STATE_EMPTY;
    SAME(qolb_state(&handle[n]), n, model.node[n].state);
    SAME(qolb_number(&handle[n]), n, there ? n : 0);
    SAME(qolb_label(&handle[n]), n, there ? model.label : 0);
    SAME(qolb_turns_left(&handle[n]), n, model.node[n].state == QOLB_STATE_HOLDING ? model.turns : 0);
    done++;
}

/* Opens a line, makes random calls for a while, and frees it after all waiting nodes have withdrawn and holders
 * released. */
static void one_line(void) {
    qolb_bytes opening;
    for (int k = 0; k < 64; k++) opening.byte[k] = (uint8_t)draw(256);
    memset(&model, 0, sizeof model);
    model.kind = (uint32_t)draw(QOLB_KINDS);
    model.label = draw(UINT64_MAX);
    model.nodes = draw(10) ? 1 + draw(6) : 1 + draw(MOST);
    model.turns = draw(3) ? QOLB_NO_LEASE : 1 + draw(200);
    memcpy(model.byte, opening.byte, 64);
    for (unsigned n = 1; n <= model.nodes; n++) model.node[n].state = QOLB_STATE_IDLE;
    SAME(qolb_open(model.kind, model.label, model.nodes, model.turns, &opening, handle + 1, MOST), 0, QOLB_DONE);
    for (uint64_t end = done + 1 + draw(2000); done < end && done < calls;) call(1 + (unsigned)draw(model.nodes));
    for (unsigned n = 1; n <= model.nodes; n++) {
        SAME(qolb_link(&handle[n]), n, links(n));
        SAME(qolb_withdraw(&handle[n]), n, withdraws(n));
        SAME(qolb_deqolb(&handle[n]), n, releases(n, 0));
        SAME(qolb_node_free(&handle[n]), n, closes(n));
    }
}

/* ---- Locks ----
 *
 * One thread uses the lock, and either holds it or does not. A call that would wait has a timeout, and times out after
 * a moment. If the thread holds the lock, a call that enters is misuse, and a try is busy. */

static struct {
    qolb_lock lock;
    qolb_cond cond;
    int open, shut, held;
    uint64_t turns;
} locked;

static void lock_opens(void) {
    locked.open = 1;
    locked.shut = 0;
}

static uint32_t lock_enters(uint32_t if_held) {
    if (!locked.open) lock_opens();
    if (locked.shut) return QOLB_CLOSED;
    if (locked.held) return if_held;
    locked.held = 1;
    return QOLB_GRANTED;
}

static uint32_t lock_leaves(int shut) {
    if (!locked.held) return QOLB_MISUSE;
    locked.held = 0;
    locked.shut = shut;
    return QOLB_DONE;
}

static uint64_t drawn_turns(void) { return draw(4) ? draw(4) : draw(2) ? draw(70000) : draw(UINT64_MAX); }

static void lock_is_opened(void) {
    uint64_t turns = drawn_turns();
    SAME(qolb_lock_open(&locked.lock, turns), 0, locked.open ? QOLB_OCCUPIED : QOLB_DONE);
    if (locked.open) return;
    lock_opens();
    locked.turns = turns;
}

static void lock_call(void) {
    switch (draw(12)) {
    case 0: SAME(qolb_lock_enter(&locked.lock), 0, lock_enters(QOLB_MISUSE)); break;
    case 1: SAME(qolb_lock_try(&locked.lock), 0, lock_enters(QOLB_BUSY)); break;
    case 2: SAME(qolb_lock_enter_within(&locked.lock, draw(2) * 300), 0, lock_enters(QOLB_MISUSE)); break;
    case 3:
    case 4: SAME(qolb_lock_leave(&locked.lock), 0, lock_leaves(0)); break;
    case 5:
        if (draw(8) == 0) SAME(qolb_lock_shut(&locked.lock), 0, lock_leaves(1));
        break;
    case 6:
        SAME(qolb_cond_wait_within(&locked.cond, &locked.lock, draw(2) * 300), 0,
             locked.held ? QOLB_TIMEDOUT : QOLB_MISUSE);
        break;
    case 7: SAME(draw(2) ? qolb_cond_signal(&locked.cond) : qolb_cond_broadcast(&locked.cond), 0, QOLB_DONE); break;
    case 8:
        SAME(qolb_lock_destroy(&locked.lock), 0, locked.held ? QOLB_BUSY : QOLB_DONE);
        if (!locked.held) locked.open = locked.shut = 0;
        break;
    case 9: lock_is_opened(); break;
    default: SAME(qolb_lock_is_mine(&locked.lock), 0, (uint64_t)locked.held);
    }
    SAME(locked.lock.own != NULL, 0, (uint64_t)locked.open);
    SAME(locked.lock.limit, 0, locked.turns);
    done++;
}

static void one_lock(void) {
    memset(&locked, 0, sizeof locked);
    locked.turns = drawn_turns();
    locked.lock = (qolb_lock)QOLB_LOCK_INIT_BARGING(locked.turns);
    for (uint64_t end = done + 1 + draw(1000); done < end && done < calls;) lock_call();
    lock_leaves(0);
    qolb_lock_leave(&locked.lock);
    SAME(qolb_lock_destroy(&locked.lock), 0, QOLB_DONE);
}

int main(int argc, char **argv) {
    calls = argc > 1 ? strtoull(argv[1], NULL, 10) : 300000;
    seed = argc > 2 ? strtoull(argv[2], NULL, 10) : 1;
    while (done < calls) draw(4) ? one_line() : one_lock();
    return 0;
}
