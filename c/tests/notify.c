/* Tests the calls with which a program requests a callback or an eventfd signal for the turn of a node: what each of
 * them returns and does, with one thread and with two. Prints only errors. */
#define _GNU_SOURCE
#include <qolb.h>
#include <errno.h>
#include <string.h>
#include <sys/eventfd.h>
#include <sys/wait.h>

#include "waiters.h"

static const qolb_bytes zeros;
static int calls;
static void *last;

static void count(void *arg) { calls++, last = arg; }

static int opens(uint32_t kind, uint64_t nodes, qolb_node *out) {
    memset(out, 0, nodes * sizeof *out);
    WANT(qolb_open(kind, 1, nodes, QOLB_NO_LEASE, &zeros, out, nodes), QOLB_DONE);
    return 0;
}

static int closes(uint64_t nodes, qolb_node *node) {
    for (uint64_t k = 0; k < nodes; k++) WANT(qolb_node_free(&node[k]), QOLB_DONE);
    return 0;
}

/* Requests the line for the node, and requests a notification. */
static int waits(qolb_node *node, void (*call)(void *), void *arg) {
    WANT(qolb_enqolb(node), QOLB_QUEUED);
    WANT(qolb_notify(node, call, arg), QOLB_WAITING);
    return 0;
}

/* Checks that `times` notifications were made, and that the node has the line. */
static int is_called(qolb_node *node, int times) {
    WANT(calls, times);
    WANT(last == node, 1);
    WANT(qolb_poll(node), QOLB_GRANTED);
    return 0;
}

/* ---- Nodes that may not request a notification ---- */

static int refuses(uint32_t kind) {
    qolb_node n[3] = {{0}};
    WANT(qolb_notify(&n[0], count, NULL), QOLB_MISUSE);
    WANT(qolb_notify_fd(&n[0], 0), QOLB_MISUSE);
    WANT(qolb_notify_off(&n[0]), QOLB_MISUSE);
    if (opens(kind, 3, n)) return 1;
    WANT(qolb_notify(&n[0], count, NULL), QOLB_MISUSE);
    WANT(qolb_notify_off(&n[0]), QOLB_DONE);
    WANT(qolb_enqolb(&n[0]), QOLB_GRANTED);
    WANT(qolb_notify(&n[0], count, NULL), QOLB_MISUSE);
    WANT(qolb_notify_fd(&n[0], 0), QOLB_MISUSE);
    WANT(qolb_enqolb(&n[1]), QOLB_QUEUED);
    WANT(qolb_notify(&n[1], NULL, NULL), QOLB_MISUSE);
    WANT(qolb_notify_fd(&n[1], -1), QOLB_MISUSE);
    WANT(qolb_withdraw(&n[1]), QOLB_WITHDRAWN);
    WANT(qolb_notify(&n[1], count, NULL), QOLB_MISUSE);
    if (kind == QOLB_LINK) {
        WANT(qolb_prepend(&n[2]), QOLB_LINKING);
        WANT(qolb_notify(&n[2], count, NULL), QOLB_MISUSE);
        WANT(qolb_link(&n[2]), QOLB_QUEUED);
        WANT(qolb_withdraw(&n[2]), QOLB_WITHDRAWN);
    }
    WANT(qolb_shut(&n[0]), QOLB_DONE);
    WANT(qolb_enqolb(&n[0]), QOLB_CLOSED);
    WANT(qolb_notify(&n[0], count, NULL), QOLB_MISUSE);
    qolb_notify_done(); /* outside of a callback */
    return closes(3, n);
}

/* ---- One thread ---- */

static int calls_once(uint32_t kind) {
    qolb_node n[3];
    calls = 0;
    if (opens(kind, 3, n)) return 1;
    WANT(qolb_enqolb(&n[0]), QOLB_GRANTED);
    if (waits(&n[1], count, &n[1]) || waits(&n[2], count, &n[2])) return 1;
    WANT(qolb_deqolb(&n[0]), QOLB_DONE);
    if (is_called(&n[1], 1)) return 1;
    WANT(qolb_notify_off(&n[1]), QOLB_DONE);
    /* After off, no notification is made. Then none can be requested, because the node is at its turn. */
    WANT(qolb_notify_off(&n[2]), QOLB_WITHDRAWN);
    WANT(qolb_notify_off(&n[2]), QOLB_DONE);
    WANT(qolb_deqolb(&n[1]), QOLB_DONE);
    WANT(qolb_notify(&n[2], count, &n[2]), QOLB_GRANTED);
    WANT(qolb_state(&n[2]), QOLB_STATE_HOLDING);
    WANT(calls, 1);
    /* The same node requests again. */
    if (waits(&n[1], count, &n[1])) return 1;
    WANT(qolb_deqolb(&n[2]), QOLB_DONE);
    if (is_called(&n[1], 2)) return 1;
    WANT(qolb_deqolb(&n[1]), QOLB_DONE);
    return closes(3, n);
}

static int replaces(uint32_t kind) {
    qolb_node n[2];
    int first = eventfd(0, EFD_NONBLOCK), second = eventfd(0, EFD_NONBLOCK);
    uint64_t got = 0;
    calls = 0;
    if (opens(kind, 2, n)) return 1;
    WANT(qolb_enqolb(&n[0]), QOLB_GRANTED);
    if (waits(&n[1], count, NULL)) return 1;
    WANT(qolb_notify_fd(&n[1], first), QOLB_WAITING);
    WANT(qolb_notify_fd(&n[1], second), QOLB_WAITING);
    errno = ENOMSG;
    WANT(qolb_deqolb(&n[0]), QOLB_DONE);
    WANT(errno, ENOMSG);
    WANT(calls, 0);
    WANT(read(first, &got, sizeof got) == -1 && errno == EAGAIN, 1);
    WANT(read(second, &got, sizeof got), sizeof got);
    WANT(got, 1);
    WANT(qolb_poll(&n[1]), QOLB_GRANTED);
    WANT(qolb_deqolb(&n[1]), QOLB_DONE);
    close(first), close(second);
    return closes(2, n);
}

/* A release passes a withdrawn request, and makes the notification of the node behind it. Freeing a node takes back the
 * notification that it has requested. */
static int passes_withdrawn(uint32_t kind) {
    qolb_node n[4];
    calls = 0;
    if (opens(kind, 4, n)) return 1;
    WANT(qolb_enqolb(&n[0]), QOLB_GRANTED);
    if (waits(&n[1], count, &n[1]) || waits(&n[2], count, &n[2]) || waits(&n[3], count, &n[3])) return 1;
    WANT(qolb_notify_off(&n[1]), QOLB_WITHDRAWN);
    WANT(qolb_withdraw(&n[1]), QOLB_WITHDRAWN);
    WANT(qolb_withdraw(&n[2]), QOLB_WITHDRAWN);
    WANT(qolb_node_free(&n[2]), QOLB_DONE);
    WANT(qolb_deqolb(&n[0]), QOLB_DONE);
    if (is_called(&n[3], 1)) return 1;
    /* A node that holds the line is not freed, and another node keeps its notification. */
    if (waits(&n[0], count, &n[0])) return 1;
    WANT(qolb_node_free(&n[0]), QOLB_MISUSE);
    WANT(qolb_node_free(&n[3]), QOLB_MISUSE);
    WANT(qolb_deqolb(&n[3]), QOLB_DONE);
    if (is_called(&n[0], 2)) return 1;
    WANT(qolb_deqolb(&n[0]), QOLB_DONE);
    WANT(qolb_node_free(&n[0]), QOLB_DONE);
    WANT(qolb_node_free(&n[1]), QOLB_DONE);
    WANT(qolb_node_free(&n[3]), QOLB_DONE);
    return 0;
}

/* Each waiting node is notified, because each node that is told of the shut passes the line on. */
static int shuts(uint32_t kind) {
    qolb_node n[3];
    calls = 0;
    if (opens(kind, 3, n)) return 1;
    WANT(qolb_enqolb(&n[0]), QOLB_GRANTED);
    if (waits(&n[1], count, &n[1]) || waits(&n[2], count, &n[2])) return 1;
    WANT(qolb_shut(&n[0]), QOLB_DONE);
    WANT(calls == 1 && last == &n[1], 1);
    WANT(qolb_notify(&n[1], count, NULL), QOLB_CLOSED);
    WANT(calls == 2 && last == &n[2], 1);
    WANT(qolb_poll(&n[2]), QOLB_CLOSED);
    return closes(3, n);
}

/* ---- Calls that release ---- */

struct chain {
    qolb_node *node;
    int rounds, turns;
};

static int depth, deepest;

/* Releases the line, and requests the line and a notification again. */
static void go_on(void *arg) {
    struct chain *me = arg;
    if (++depth > deepest) deepest = depth;
    MUST(qolb_poll(me->node), QOLB_GRANTED);
    me->turns++;
    MUST(qolb_deqolb(me->node), QOLB_DONE);
    if (me->rounds-- > 0) {
        uint32_t got = qolb_enqolb(me->node);
        if (got == QOLB_QUEUED) got = qolb_notify(me->node, go_on, me);
        if (got == QOLB_GRANTED) MUST(qolb_deqolb(me->node), QOLB_DONE);
    }
    depth--;
}

/* One release starts all acquisitions of three nodes. No callback runs inside another. */
static int nests_no_call(uint32_t kind) {
    qolb_node n[4];
    struct chain it[3];
    deepest = 0;
    if (opens(kind, 4, n)) return 1;
    WANT(qolb_enqolb(&n[0]), QOLB_GRANTED);
    for (int k = 0; k < 3; k++) {
        it[k] = (struct chain){&n[k + 1], 50000, 0};
        if (waits(&n[k + 1], go_on, &it[k])) return 1;
    }
    WANT(qolb_deqolb(&n[0]), QOLB_DONE);
    WANT(deepest, 1);
    for (int k = 0; k < 3; k++) WANT(it[k].turns > 1000, 1);
    for (int k = 0; k < 4; k++) {
        qolb_notify_off(&n[k]);
        if (qolb_state(&n[k]) == QOLB_STATE_QUEUED) WANT(qolb_withdraw(&n[k]) == QOLB_MISUSE, 0);
        qolb_deqolb(&n[k]);
    }
    return closes(4, n);
}

enum { LINES = 1100 };
static qolb_node of[LINES][2];

/* One callback releases more than 32 lines. */
static void release_all(void *arg) {
    (void)arg;
    for (int k = 1; k < 100; k++) MUST(qolb_deqolb(&of[k][0]), QOLB_DONE);
}

static int has_turns_of_many(uint32_t kind) {
    calls = 0;
    for (int k = 0; k < 100; k++) {
        if (opens(kind, 2, of[k])) return 1;
        WANT(qolb_enqolb(&of[k][0]), QOLB_GRANTED);
        if (waits(&of[k][1], k ? count : release_all, NULL)) return 1;
    }
    WANT(qolb_deqolb(&of[0][0]), QOLB_DONE);
    WANT(calls, 99);
    for (int k = 0; k < 100; k++) {
        WANT(qolb_poll(&of[k][1]), QOLB_GRANTED);
        WANT(qolb_deqolb(&of[k][1]), QOLB_DONE);
        if (closes(2, of[k])) return 1;
    }
    return 0;
}

/* Releases another line, which puts off the notification of its next node, and frees both nodes of that line. */
static void closes_another_line(void *other) {
    qolb_node *it = other;
    MUST(qolb_deqolb(&it[0]), QOLB_DONE);
    MUST(qolb_notify_off(&it[1]), QOLB_WITHDRAWN);
    MUST(qolb_poll(&it[1]), QOLB_GRANTED);
    MUST(qolb_deqolb(&it[1]), QOLB_DONE);
    for (int k = 0; k < 2; k++) MUST(qolb_node_free(&it[k]), QOLB_DONE);
}

/* The nodes of a line may be freed while a notification of the line is put off. Then it is not made. The leak sanitizer
 * sees whether the line's memory is freed. The address sanitizer, if the library is compiled with it, sees whether the
 * memory is used afterwards. */
static int closes_with_a_call_put_off(uint32_t kind) {
    qolb_node n[2], other[2];
    calls = 0;
    if (opens(kind, 2, n) || opens(kind, 2, other)) return 1;
    WANT(qolb_enqolb(&n[0]), QOLB_GRANTED);
    WANT(qolb_enqolb(&other[0]), QOLB_GRANTED);
    if (waits(&n[1], closes_another_line, other) || waits(&other[1], count, NULL)) return 1;
    WANT(qolb_deqolb(&n[0]), QOLB_DONE);
    WANT(calls, 0);
    WANT(other[0].own == NULL && other[1].own == NULL, 1);
    WANT(qolb_poll(&n[1]), QOLB_GRANTED);
    WANT(qolb_deqolb(&n[1]), QOLB_DONE);
    return closes(2, n);
}

/* Many lines make no notifications for each other. */
static int tells_lines_apart(uint32_t kind) {
    for (int k = 0; k < LINES; k++) {
        if (opens(kind, 2, of[k])) return 1;
        WANT(qolb_enqolb(&of[k][0]), QOLB_GRANTED);
        if (waits(&of[k][1], count, &of[k][1])) return 1;
    }
    for (int k = 0; k < LINES; k++) {
        calls = 0;
        WANT(qolb_deqolb(&of[k][0]), QOLB_DONE);
        if (is_called(&of[k][1], 1)) return 1;
        WANT(qolb_deqolb(&of[k][1]), QOLB_DONE);
        if (closes(2, of[k])) return 1;
    }
    return 0;
}

/* ---- Another thread makes the notification ---- */

static atomic_int in, out, behind, done_first;

static void be_slow(void *arg) {
    (void)arg;
    atomic_store(&in, 1);
    if (atomic_load(&done_first)) qolb_notify_done();
    usleep(50 * 1000); /* a cancellation point */
    atomic_store(&out, 1);
}

static void *releases(void *node) {
    MUST(qolb_deqolb(node), QOLB_DONE);
    atomic_store(&behind, 1);
    for (;;) usleep(1000);
    return NULL;
}

/* A thread is cancelled in a callback, and goes on until the end of the callback. Meanwhile a call that takes the
 * notification back, or that frees the node, waits for the callback, unless that has said that it is done. */
static int waits_for_the_call(uint32_t kind, int by_close, int done) {
    qolb_node n[3];
    pthread_t thread;
    atomic_store(&in, 0), atomic_store(&out, 0), atomic_store(&behind, 0), atomic_store(&done_first, done);
    if (opens(kind, 3, n)) return 1;
    WANT(qolb_enqolb(&n[0]), QOLB_GRANTED);
    if (waits(&n[1], be_slow, NULL)) return 1;
    WANT(pthread_create(&thread, NULL, releases, &n[0]), 0);
    while (!atomic_load(&in)) sched_yield();
    WANT(pthread_cancel(thread), 0);
    WANT(qolb_poll(&n[1]), QOLB_GRANTED);
    if (by_close) {
        WANT(qolb_deqolb(&n[1]), QOLB_DONE);
        WANT(qolb_node_free(&n[1]), QOLB_DONE);
    } else {
        WANT(qolb_notify_off(&n[1]), QOLB_DONE);
        WANT(qolb_deqolb(&n[1]), QOLB_DONE);
        WANT(qolb_node_free(&n[1]), QOLB_DONE);
    }
    if (!done) WANT(atomic_load(&out), 1);
    WANT(pthread_join(thread, NULL), 0);
    WANT(atomic_load(&out) && atomic_load(&behind), 1);
    WANT(qolb_node_free(&n[0]), QOLB_DONE);
    WANT(qolb_node_free(&n[2]), QOLB_DONE);
    return 0;
}

/* A callback that takes back the notification of its own node does not wait for itself. */
static void take_off(void *node) { MUST(qolb_notify_off(node), QOLB_DONE); }

static int waits_not_for_itself(uint32_t kind) {
    qolb_node n[2];
    if (opens(kind, 2, n)) return 1;
    WANT(qolb_enqolb(&n[0]), QOLB_GRANTED);
    if (waits(&n[1], take_off, &n[1])) return 1;
    WANT(qolb_deqolb(&n[0]), QOLB_DONE);
    WANT(qolb_poll(&n[1]), QOLB_GRANTED);
    WANT(qolb_deqolb(&n[1]), QOLB_DONE);
    return closes(2, n);
}

/* A fork copies the requested notification, so it is made in each process. */
static int calls_in_both_processes(uint32_t kind) {
    qolb_node n[2];
    int status;
    calls = 0;
    if (opens(kind, 2, n)) return 1;
    WANT(qolb_enqolb(&n[0]), QOLB_GRANTED);
    if (waits(&n[1], count, &n[1])) return 1;
    pid_t child = fork();
    WANT(qolb_deqolb(&n[0]), QOLB_DONE);
    if (is_called(&n[1], 1)) return 1;
    WANT(qolb_deqolb(&n[1]), QOLB_DONE);
    if (child == 0) _exit(closes(2, n));
    WANT(waitpid(child, &status, 0) == child && status == 0, 1);
    return closes(2, n);
}

int main(void) {
    alarm(120);
    for (uint32_t kind = 0; kind < QOLB_KINDS; kind++) {
        if (refuses(kind) || calls_once(kind) || replaces(kind) || passes_withdrawn(kind) || shuts(kind)) return 1;
        if (nests_no_call(kind) || has_turns_of_many(kind) || tells_lines_apart(kind)) return 1;
        if (closes_with_a_call_put_off(kind)) return 1;
        for (int done = 0; done < 2; done++)
            if (waits_for_the_call(kind, 0, done) || waits_for_the_call(kind, 1, done)) return 1;
        if (waits_not_for_itself(kind) || calls_in_both_processes(kind)) return 1;
    }
    return 0;
}
