/* What the C code stores for a line in order to wait: where nodes sleep, who wakes them, and when the memory of the
 * line is freed (qolb_node(3)). line.c opens lines, and calls.c waits and releases.
 *
 * The line itself is proved: its words, its 64 bytes and the requests of its nodes are in memory of the proved part,
 * which the calls of proved.h use. This header declares the further data that waiting needs.
 *
 * Where a node sleeps: each word on which nodes wait has a place in the line, and the waiting thread sleeps there. It
 * adds 1 to the place's `sleepers` and to the line's `waiting`, reads the place's `word`, polls once more, and sleeps
 * while that word is unchanged. A node that has no thread puts a callback into the line's list instead (callbacks.h).
 *
 * Who wakes it: the thread that releases the line. After the release this thread reads `waiting`. If it is not 0, the
 * thread asks the proved part on which words the next holder and the waiter behind it wait, wakes the sleepers of these
 * two places, and calls the next holder's callback. All these steps are sequentially consistent, so either the waiter
 * sees the release or the releasing thread sees the waiter (a Dekker handshake).
 *
 * When the memory is freed: the line, its nodes and its places are one block of memory, which is freed once all nodes
 * are freed and no callback of the line is still deferred. A thread may use the block during any call on one of the
 * nodes, even after it has released the line, because nobody may free that node during the call.
 *
 * tools/explore_nodes.py model-checks this code, as it is and with each of its steps changed, on a model of the
 * processor's memory. */
#ifndef QOLB_LINE_H
#define QOLB_LINE_H

#include "../proved/qolb_layout.h"
#include "callbacks.h"
#include "futex.h"
#include "proved.h"
#include <stdatomic.h>

/* A place where nodes of a line sleep. */
struct place {
    atomic_uint sleepers; /* the number of nodes that sleep here */
    atomic_uint word;     /* changes with each wake */
};

/* What a handle of qolb.h points to. Once the line is open, only the callback is written. */
struct node {
    qolb_node proved; /* the proved node */
    struct line *line;
    struct callback callback;
};

struct line {
    struct callbacks callbacks; /* the first field, because its address is that of the block to free */
    uint32_t kind, nodes;
    struct node node[]; /* the places are behind the nodes */
};

/* Returns the number of places of a line: the least power of two that is not below the number of its nodes. */
static inline uint32_t places_for(uint32_t nodes) { return nodes < 2 ? 1 : 2u << (31 - __builtin_clz(nodes - 1)); }

/* Returns the place of the node that waits at this word of the line. No two waiting nodes of a line share a place: the
 * words on which nodes wait at one time are LAYOUT_PLACE_WORDS apart, and there are at most as many in a row as nodes.
 */
static inline struct place *place_at(struct line *line, uint64_t word) {
    struct place *places = (struct place *)&line->node[line->nodes];
    return &places[word / LAYOUT_PLACE_WORDS % places_for(line->nodes)];
}

/* Returns the node of a handle, or NULL if the handle is empty. */
static inline struct node *node_of(const qolb_node *handle) { return handle->own; }

static inline struct qolb_look look_at(struct node *my) {
    struct qolb_look look;
    qolb_look_proved_(&my->proved, &look);
    return look;
}

#endif
