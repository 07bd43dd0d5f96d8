/* Tests lines of each kind. Two threads add to one lane. Then the test makes every incorrect call that the library must
 * refuse, opens a line with each possible number of nodes, and frees a node that has closed its line. Prints only
 * errors. */
#define _POSIX_C_SOURCE 200809L
#include "want.h"
#include <pthread.h>
#include <qolb.h>
#include <stdio.h>
#include <string.h>
#include <unistd.h>

enum { THREADS = 2, ROUNDS = 20000 };

/* A thread and its node, apart from others, so that the threads share only the cache lines of the line. */
struct adder {
    _Alignas(QOLB_NODE_ALIGN) qolb_node node;
};

/* Adds 1 to lane 3: in a third of the rounds by one call, in a third by lanes, and in a third by whole lines. No other
 * thread uses the node. */
static void *add(void *argument) {
    qolb_node *node = &((struct adder *)argument)->node;
    for (int round = 0; round < ROUNDS; round++) {
        if (qolb_acquire(node) != QOLB_GRANTED) return "not granted";
        uint64_t count;
        if (round % 3 == 0) {
            if (qolb_add_lane(node, 3, 1, &count) != QOLB_DONE) return "not added to a lane";
        } else if (round % 3 == 1) {
            if (qolb_read_lane(node, 3, &count) != QOLB_DONE) return "lane not read";
            if (qolb_write_lane(node, 3, count + 1) != QOLB_DONE) return "lane not written";
        } else {
            qolb_bytes line;
            if (qolb_read(node, &line) != QOLB_DONE) return "not read";
            memcpy(&count, line.byte + 24, 8);
            count++;
            memset(line.byte, 0xee, sizeof line.byte);
            memcpy(line.byte + 24, &count, 8);
            if (qolb_write(node, 0xff000000, &line) != QOLB_DONE) return "not written";
        }
        if (qolb_deqolb(node) != QOLB_DONE) return "not released";
    }
    return NULL;
}

static int count(uint32_t kind) {
    qolb_bytes zeros = {{0}}, line;
    qolb_node nodes[THREADS] = {{0}};
    struct adder adders[THREADS];
    pthread_t threads[THREADS];
    WANT(qolb_open(kind, 1, THREADS, QOLB_NO_LEASE, &zeros, nodes, THREADS), QOLB_DONE);
    for (int k = 0; k < THREADS; k++) adders[k].node = qolb_move(&nodes[k]);
    for (int k = 0; k < THREADS; k++) WANT(pthread_create(&threads[k], NULL, add, &adders[k]), 0);
    for (int k = 0; k < THREADS; k++) {
        void *wrong;
        WANT(pthread_join(threads[k], &wrong), 0);
        if (wrong) {
            printf("thread %d: %s\n", k, (const char *)wrong);
            return 1;
        }
    }
    WANT(qolb_acquire(&adders[0].node), QOLB_GRANTED);
    WANT(qolb_read(&adders[0].node, &line), QOLB_DONE);
    for (int k = 0; k < 64; k++)
        if (k / 8 != 3) WANT(line.byte[k], 0);
    uint64_t sum;
    WANT(qolb_read_lane(&adders[0].node, 3, &sum), QOLB_DONE);
    WANT(sum, THREADS * ROUNDS);
    WANT(qolb_deqolb(&adders[0].node), QOLB_DONE);
    for (int k = 0; k < THREADS; k++) WANT(qolb_node_free(&adders[k].node), QOLB_DONE);
    return 0;
}

static int refusals(void) {
    qolb_bytes zeros = {{0}};
    qolb_node nodes[3] = {{0}}, other = {0};
    WANT(qolb_open(3, 7, 0, 0, &zeros, nodes, 3), QOLB_BAD_KIND);
    WANT(qolb_open(QOLB_RING, 7, 0, 0, &zeros, nodes, 3), QOLB_BAD_NODES);
    WANT(qolb_open(QOLB_LINK, 7, 201, QOLB_NO_LEASE, &zeros, nodes, 3), QOLB_BAD_NODES);
    WANT(qolb_open(QOLB_LINK, 7, 4, 0, &zeros, nodes, 3), QOLB_BAD_LEASE);
    WANT(qolb_open(QOLB_RING, 7, 4, 1, &zeros, nodes, 3), QOLB_TOO_FEW);
    WANT(qolb_open(QOLB_LINK, 7, 1, 1, &zeros, &other, 1), QOLB_DONE);
    void *own = other.own;
    nodes[2] = qolb_move(&other);
    WANT(other.own == NULL, 1);
    WANT(qolb_open(QOLB_TICKET, 8, 3, QOLB_NO_LEASE, &zeros, nodes, 3), QOLB_OCCUPIED);
    WANT(nodes[0].own == NULL && nodes[1].own == NULL && nodes[2].own == own, 1);
    WANT(qolb_open(QOLB_RING, 8, 2, QOLB_NO_LEASE, &zeros, nodes, 3), QOLB_DONE);
    WANT(qolb_number(&nodes[0]), 1);
    WANT(qolb_number(&nodes[1]), 2);
    WANT(nodes[2].own == own, 1);
    for (int k = 0; k < 3; k++) WANT(qolb_node_free(&nodes[k]), QOLB_DONE);
    for (int k = 0; k < 3; k++) WANT(nodes[k].own == NULL, 1);
    return 0;
}

/* Opens a line of each number of nodes, with short and long leases, with labels up to the largest, and with more
 * handles than it needs. A line of 200 nodes is opened with each of the leases. */
static int opens(uint32_t kind) {
    static const uint64_t leases[] = {
        1, UINT32_MAX, (uint64_t)UINT32_MAX + 1, (uint64_t)1 << 63, UINT64_MAX - 1, QOLB_NO_LEASE};
    static qolb_node nodes[1000];
    qolb_bytes zeros = {{0}};
    for (uint64_t many = 1; many <= 200; many++)
        for (uint64_t k = 0; k < 6; k++) {
            if (many < 200 && k != many % 6) continue;
            uint64_t label = k % 2 ? UINT64_MAX - many + 1 : many << 32;
            WANT(qolb_open(kind, label, many, leases[k], &zeros, nodes, k < 3 ? 1000 : many), QOLB_DONE);
            WANT(nodes[many].own == NULL, 1);
            WANT(qolb_enqolb(&nodes[many - 1]), QOLB_GRANTED);
            WANT(qolb_turns_left(&nodes[many - 1]), leases[k]);
            WANT(qolb_label(&nodes[many - 1]), label);
            WANT(qolb_deqolb(&nodes[many - 1]), QOLB_DONE);
            for (uint64_t n = 0; n < many; n++) WANT(qolb_node_free(&nodes[n]), QOLB_DONE);
        }
    return 0;
}

static int empty_handle(void) {
    qolb_bytes line = {{0}};
    qolb_node node = {0};
    uint64_t lane = 5;
    WANT(qolb_enqolb(&node), QOLB_MISUSE);
    WANT(qolb_poll(&node), QOLB_MISUSE);
    WANT(qolb_spin(&node, 1), QOLB_MISUSE);
    WANT(qolb_withdraw(&node), QOLB_MISUSE);
    WANT(qolb_prepend(&node), QOLB_MISUSE);
    WANT(qolb_link(&node), QOLB_MISUSE);
    WANT(qolb_read(&node, &line), QOLB_MISUSE);
    WANT(qolb_write(&node, 1, &line), QOLB_MISUSE);
    WANT(qolb_read_lane(&node, 0, &lane), QOLB_MISUSE);
    WANT(lane, 5);
    WANT(qolb_write_lane(&node, 0, 1), QOLB_MISUSE);
    WANT(qolb_add_lane(&node, 0, 1, &lane), QOLB_MISUSE);
    WANT(lane, 5);
    WANT(qolb_deqolb(&node), QOLB_MISUSE);
    WANT(qolb_shut(&node), QOLB_MISUSE);
    WANT(qolb_node_free(&node), QOLB_MISUSE);
    WANT(qolb_number(&node), 0);
    WANT(qolb_state(&node), QOLB_STATE_EMPTY);
    return 0;
}

static int misuse(uint32_t kind) {
    qolb_bytes line = {{9}};
    qolb_node n[3] = {{0}};
    uint64_t lane = 5;
    WANT(qolb_open(kind, 7, 3, QOLB_NO_LEASE, &line, n, 3), QOLB_DONE);
    line.byte[0] = 1;
    WANT(qolb_state(&n[0]), QOLB_STATE_IDLE);
    WANT(qolb_poll(&n[0]), QOLB_MISUSE);
    WANT(qolb_withdraw(&n[0]), QOLB_MISUSE);
    WANT(qolb_deqolb(&n[0]), QOLB_MISUSE);
    WANT(qolb_shut(&n[0]), QOLB_MISUSE);
    WANT(qolb_link(&n[0]), QOLB_MISUSE);
    WANT(qolb_read(&n[0], &line), QOLB_MISUSE);
    WANT(line.byte[0], 1);
    WANT(qolb_write(&n[0], 1, &line), QOLB_MISUSE);
    WANT(qolb_enqolb(&n[0]), QOLB_GRANTED);
    WANT(qolb_state(&n[0]), QOLB_STATE_HOLDING);
    WANT(qolb_enqolb(&n[0]), QOLB_MISUSE);
    WANT(qolb_prepend(&n[0]), QOLB_MISUSE);
    WANT(qolb_poll(&n[0]), QOLB_MISUSE);
    WANT(qolb_node_free(&n[0]), QOLB_MISUSE);
    WANT(qolb_read_lane(&n[0], 8, &lane), QOLB_MISUSE);
    WANT(lane, 5);
    WANT(qolb_write_lane(&n[0], 8, 1), QOLB_MISUSE);
    WANT(qolb_add_lane(&n[0], 8, 1, &lane), QOLB_MISUSE);
    WANT(lane, 5);
    WANT(qolb_read_lane(&n[0], 0, &lane), QOLB_DONE);
    WANT(lane, 9);
    WANT(qolb_enqolb(&n[1]), QOLB_QUEUED);
    WANT(qolb_state(&n[1]), QOLB_STATE_QUEUED);
    WANT(qolb_spin(&n[1], 0), QOLB_MISUSE);
    WANT(qolb_spin(&n[1], 3), QOLB_WAITING);
    WANT(qolb_enqolb(&n[2]), QOLB_QUEUED);
    WANT(qolb_node_free(&n[1]), QOLB_MISUSE);
    WANT(qolb_read(&n[1], &line), QOLB_MISUSE);
    WANT(qolb_withdraw(&n[1]), QOLB_WITHDRAWN);
    WANT(qolb_state(&n[1]), QOLB_STATE_ROLLED);
    WANT(qolb_enqolb(&n[1]), QOLB_BUSY);
    WANT(qolb_poll(&n[2]), QOLB_WAITING);
    WANT(qolb_deqolb(&n[0]), QOLB_DONE);
    WANT(qolb_poll(&n[2]), QOLB_GRANTED);
    WANT(qolb_write_lane(&n[2], 7, UINT64_MAX), QOLB_DONE);
    WANT(qolb_add_lane(&n[2], 7, 2, &lane), QOLB_DONE);
    WANT(lane, UINT64_MAX);
    WANT(qolb_add_lane(&n[2], 7, UINT64_MAX - 1, &lane), QOLB_DONE);
    WANT(lane, 1);
    WANT(qolb_read(&n[2], &line), QOLB_DONE);
    for (int k = 0; k < 64; k++) WANT(line.byte[k], k / 8 == 7 ? 255 : k == 0 ? 9 : 0);
    WANT(qolb_shut(&n[2]), QOLB_DONE);
    WANT(qolb_state(&n[2]), QOLB_STATE_SHUT);
    WANT(qolb_enqolb(&n[1]), QOLB_CLOSED);
    for (int k = 0; k < 3; k++) WANT(qolb_node_free(&n[k]), QOLB_DONE);
    return 0;
}

/* Tests a node that has made a request and not linked it, and a lease of two acquisitions. */
static int halves(void) {
    qolb_bytes zeros = {{0}};
    qolb_node n[2] = {{0}}, other = {0};
    for (uint32_t kind = 0; kind < QOLB_KINDS; kind++) {
        if (kind == QOLB_LINK) continue;
        WANT(qolb_open(kind, 7, 1, QOLB_NO_LEASE, &zeros, &other, 1), QOLB_DONE);
        WANT(qolb_prepend(&other), QOLB_MISUSE);
        WANT(qolb_link(&other), QOLB_MISUSE);
        WANT(qolb_node_free(&other), QOLB_DONE);
    }
    WANT(qolb_open(QOLB_LINK, 7, 2, 2, &zeros, n, 2), QOLB_DONE);
    WANT(qolb_prepend(&n[0]), QOLB_GRANTED);
    WANT(qolb_prepend(&n[1]), QOLB_LINKING);
    WANT(qolb_state(&n[1]), QOLB_STATE_LINKING);
    WANT(qolb_poll(&n[1]), QOLB_MISUSE);
    WANT(qolb_node_free(&n[1]), QOLB_MISUSE);
    WANT(qolb_deqolb(&n[0]), QOLB_DONE);
    WANT(qolb_state(&n[0]), QOLB_STATE_LEFT);
    WANT(qolb_link(&n[1]), QOLB_GRANTED);
    WANT(qolb_deqolb(&n[1]), QOLB_DONE); /* the last acquisition of the lease */
    WANT(qolb_enqolb(&n[0]), QOLB_CLOSED);
    for (int k = 0; k < 2; k++) WANT(qolb_node_free(&n[k]), QOLB_DONE);
    return 0;
}

/* A node that has closed the line is freed while another node waits. It leaves no request behind, so the other node is
 * told. */
static int frees_after_shut(uint32_t kind) {
    enum { NODES = 3 };
    qolb_bytes zeros = {{0}};
    qolb_node nodes[NODES] = {{0}};
    WANT(qolb_open(kind, 1, NODES, QOLB_NO_LEASE, &zeros, nodes, NODES), QOLB_DONE);
    WANT(qolb_enqolb(&nodes[0]), QOLB_GRANTED);
    WANT(qolb_enqolb(&nodes[1]), QOLB_QUEUED);
    WANT(qolb_shut(&nodes[0]), QOLB_DONE);
    WANT(qolb_node_free(&nodes[0]), QOLB_DONE);
    WANT(qolb_poll(&nodes[1]), QOLB_CLOSED);
    WANT(qolb_enqolb(&nodes[2]), QOLB_CLOSED);
    for (int k = 1; k < NODES; k++) WANT(qolb_node_free(&nodes[k]), QOLB_DONE);
    return 0;
}

int main(void) {
    alarm(300); /* if a grant is lost, the thread that waits for it does not end */
    for (uint32_t kind = 0; kind < QOLB_KINDS; kind++)
        if (count(kind) || misuse(kind) || opens(kind) || frees_after_shut(kind)) return 1;
    return refusals() || empty_handle() || halves();
}
