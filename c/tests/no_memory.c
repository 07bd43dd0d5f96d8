/* Tests calls that run out of memory. Each allocation of the call that opens a line fails in turn. Then that call must
 * fail, leave the handles empty, and free all memory. Only qolb_open and qolb_node_free allocate, free, or write to a
 * handle; the proved calls must leave the same node in the handle. A lock must never allocate memory, whichever call
 * uses it first. The program is linked with --wrap for malloc, realloc and free. Prints only errors. */
#define _DEFAULT_SOURCE
#include <proved.h>
#include <stdio.h>
#include <stdlib.h>
#include <sys/mman.h>

enum { NODES = 5 };

static unsigned long taken, given_back, refuse_at;

void *__real_malloc(size_t size);
void *__real_realloc(void *block, size_t size);
void __real_free(void *block);

void *__wrap_malloc(size_t size) {
    if (++taken == refuse_at) {
        taken--;
        refuse_at = 0;
        return NULL;
    }
    return __real_malloc(size);
}

void *__wrap_realloc(void *block, size_t size) {
    if (refuse_at && taken + 1 == refuse_at) {
        refuse_at = 0;
        return NULL;
    }
    return __real_realloc(block, size);
}

void __wrap_free(void *block) {
    if (block) given_back++;
    __real_free(block);
}

static int refused_in_turn(uint32_t kind) {
    qolb_bytes zeros = {{0}};
    for (unsigned long n = 1;; n++) {
        qolb_node nodes[NODES] = {{0}};
        taken = given_back = 0;
        refuse_at = n;
        uint32_t got = qolb_open(kind, 1, NODES, QOLB_NO_LEASE, &zeros, nodes, NODES);
        if (refuse_at) { /* there were fewer than n allocations */
            refuse_at = 0;
            if (got != QOLB_DONE || n < 4) return printf("allocation %lu: answer %u\n", n, got), 1;
            for (int k = 0; k < NODES; k++)
                if (qolb_node_free(&nodes[k]) != QOLB_DONE) return puts("not closed"), 1;
            if (taken != given_back) return printf("%lu taken, %lu given back\n", taken, given_back), 1;
            return 0;
        }
        if (got != QOLB_NO_MEMORY) return printf("allocation %lu: answer %u\n", n, got), 1;
        for (int k = 0; k < NODES; k++)
            if (nodes[k].own) return printf("allocation %lu: a handle was written\n", n), 1;
        if (taken != given_back) return printf("allocation %lu: %lu taken, %lu given back\n", n, taken, given_back), 1;
    }
}

/* Makes calls while no call may write to the handles: a write would end the program by SIGSEGV. */
static int calls_take_none(uint32_t kind) {
    enum { PAGE = 4096 };
    qolb_bytes bytes = {{0}};
    qolb_node *nodes = mmap(NULL, PAGE, PROT_READ | PROT_WRITE, MAP_PRIVATE | MAP_ANONYMOUS, -1, 0), *one = nodes,
              *two = nodes + 1;
    uint64_t number = 0;
    if (nodes == MAP_FAILED || qolb_open(kind, 1, 2, 9, &bytes, nodes, 2) != QOLB_DONE) return puts("not opened"), 1;
    if (mprotect(nodes, PAGE, PROT_READ) != 0) return puts("not protected"), 1;
    taken = given_back = 0;
    if (qolb_enqolb(one) != QOLB_GRANTED || qolb_turns_left(one) != 9) return puts("not granted"), 1;
    if (qolb_write(one, 1, &bytes) != QOLB_DONE || qolb_write_lane(one, 1, 7) != QOLB_DONE)
        return puts("not written"), 1;
    if (qolb_add_lane(one, 1, 2, &number) != QOLB_DONE || number != 7) return puts("not added"), 1;
    if (qolb_read(one, &bytes) != QOLB_DONE || qolb_read_lane(one, 1, &number) != QOLB_DONE || number != 9)
        return puts("not read"), 1;
    if (qolb_enqolb(two) != QOLB_QUEUED || qolb_poll(two) != QOLB_WAITING || qolb_spin(two, 3) != QOLB_WAITING)
        return puts("does not wait"), 1;
    if (qolb_number(two) != 2 || qolb_label(two) != 1 || qolb_state(two) != QOLB_STATE_QUEUED)
        return puts("not node 2"), 1;
    if (qolb_memory(kind, 2) == 0) return puts("no memory is told"), 1;
    if (qolb_withdraw(two) != QOLB_WITHDRAWN || qolb_settle_node(two) != QOLB_BUSY || qolb_enqolb(two) != QOLB_BUSY)
        return puts("not busy"), 1;
    if (qolb_deqolb(one) != QOLB_DONE || qolb_settle_node(two) != QOLB_DONE || qolb_settle_node(one) != QOLB_DONE)
        return puts("not passed"), 1;
    if (kind == QOLB_LINK) {
        if (qolb_prepend(two) != QOLB_GRANTED || qolb_prepend(one) != QOLB_LINKING || qolb_link(one) != QOLB_QUEUED)
            return puts("not linked"), 1;
    } else {
        if (qolb_enqolb(two) != QOLB_GRANTED || qolb_enqolb(one) != QOLB_QUEUED) return puts("not queued"), 1;
    }
    if (qolb_shut(two) != QOLB_DONE || qolb_poll(one) != QOLB_CLOSED || qolb_poll(one) != QOLB_MISUSE)
        return puts("not closed"), 1;
    if (qolb_acquire(one) != QOLB_CLOSED || qolb_acquire_within(two, 0) != QOLB_CLOSED ||
        qolb_acquire(one) != QOLB_CLOSED)
        return puts("not closed"), 1;
    if (taken || given_back) return printf("calls took %lu and gave back %lu\n", taken, given_back), 1;
    if (mprotect(nodes, PAGE, PROT_READ | PROT_WRITE) != 0) return puts("not protected"), 1;
    if (qolb_node_free(one) != QOLB_DONE || qolb_node_free(two) != QOLB_DONE || !given_back)
        return puts("not given back"), 1;
    return munmap(nodes, PAGE);
}

/* Checks that each proved call on a node leaves the same node in its handle. */
static int puts_the_same_back(uint32_t kind) {
    qolb_bytes bytes = {{0}};
    qolb_node one[2] = {{0}}, *two = one + 1;
    struct qolb_look look;
    uint64_t lane;
    if (qolb_open_proved_(kind, 1, 2, 9, &bytes, one, 2) != QOLB_DONE) return puts("not opened"), 1;
    void *was[] = {one->own, two->own};
#define SAME(call) ((call), one->own == was[0] && two->own == was[1])
    int same = SAME(qolb_enqolb_proved_(one)) && SAME(qolb_enqolb_proved_(one)) && SAME(qolb_look_proved_(one, &look));
    same = same && SAME(qolb_write_proved_(one, 1, &bytes)) && SAME(qolb_write_lane_proved_(one, 1, 7)) &&
           SAME(qolb_read_proved_(one, &bytes));
    same = same && SAME(qolb_add_lane_proved_(one, 1, 2, &lane)) && SAME(qolb_read_lane_proved_(one, 1, &lane));
    same = same && SAME(qolb_enqolb_proved_(two)) && SAME(qolb_poll_proved_(two)) && SAME(qolb_wait_proved_(two, 3)) &&
           SAME(qolb_withdraw_proved_(two));
    same = same && SAME(qolb_clear_proved_(two)) && SAME(qolb_clear_proved_(one)) && SAME(qolb_enqolb_proved_(two));
    same = same && SAME(qolb_deqolb_proved_(one)) && SAME(qolb_look_proved_(one, &look));
    same = same && SAME(qolb_prepend_proved_(one)) && SAME(qolb_prepend_proved_(two));
    same = same && SAME(qolb_link_proved_(two)) && SAME(qolb_shut_proved_(one)) && SAME(qolb_poll_proved_(two)) &&
           SAME(qolb_enqolb_proved_(one));
#undef SAME
    if (!same) return puts("another node was put back"), 1;
    if (kind != QOLB_LINK && qolb_shut_proved_(one) != QOLB_DONE) return puts("does not hold it"), 1;
    if (qolb_close_proved_(one) != QOLB_DONE || qolb_close_proved_(two) != QOLB_DONE) return puts("not closed"), 1;
    return 0;
}

/* Uses a lock in each way that may be its first use, and goes on with it. Nothing is allocated. */
static uint32_t used_first(qolb_lock *lock, unsigned way) {
    switch (way) {
    case 0: return qolb_lock_enter(lock);
    case 1: return qolb_lock_try(lock);
    case 2: return qolb_lock_enter_within(lock, 1000);
    default: return qolb_lock_open(lock, 64);
    }
}

static int lock_takes_none(unsigned way, uint64_t barging) {
    qolb_lock lock = QOLB_LOCK_INIT_BARGING(barging);
    qolb_cond cond = QOLB_COND_INIT;
    taken = given_back = 0;
    if (used_first(&lock, way) != (way == 3 ? QOLB_DONE : QOLB_GRANTED)) return puts("lock: not used"), 1;
    if (way == 3 && qolb_lock_enter(&lock) != QOLB_GRANTED) return puts("lock: not entered"), 1;
    if (qolb_lock_enter_within(&lock, 0) != QOLB_MISUSE || qolb_cond_wait_within(&cond, &lock, 0) != QOLB_TIMEDOUT)
        return puts("lock: not late"), 1;
    if (qolb_lock_leave(&lock) != QOLB_DONE || qolb_lock_destroy(&lock) != QOLB_DONE)
        return puts("lock: not closed"), 1;
    return taken || given_back ? printf("lock: %lu taken, %lu given back\n", taken, given_back), 1 : 0;
}

static int tried(uint32_t kind) { return refused_in_turn(kind) || calls_take_none(kind) || puts_the_same_back(kind); }

int main(void) {
    for (uint32_t kind = 0; kind < QOLB_KINDS; kind++)
        if (tried(kind)) return 1;
    for (unsigned way = 0; way < 4; way++)
        if (lock_takes_none(way, 0) || lock_takes_none(way, 64)) return 1;
    return 0;
}
