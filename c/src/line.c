/* Opens lines and frees their nodes, and allocates the memory that the C code needs for a line (line.h). The last user
 * of a line frees this memory with qolb_let_go_ (callbacks.c). This file is tested and model-checked, but not
 * proved. */
#include "line.h"
#include "heap.h"
#include <stdlib.h>

enum { MOST_NODES = LAYOUT_MAX_NODES };

static size_t line_bytes(uint32_t nodes) {
    return sizeof(struct line) + nodes * sizeof(struct node) + places_for(nodes) * sizeof(struct place);
}

/* Makes a line of these proved nodes, which are moved into it. Returns NULL if there is no memory. */
static struct line *new_line(uint32_t kind, uint32_t nodes, qolb_node *proved) {
    struct line *line = malloc(line_bytes(nodes));
    if (!line) return NULL;
    *line = (struct line){.kind = kind, .nodes = nodes, .callbacks.others = nodes - 1};
    for (uint32_t k = 0; k < nodes; k++) line->node[k] = (struct node){.proved = qolb_move(&proved[k]), .line = line};
    for (uint64_t k = 0; k < places_for(nodes); k++) *place_at(line, k * LAYOUT_PLACE_WORDS) = (struct place){0};
    return line;
}

static int is_occupied(const qolb_node *out, uint64_t nodes) {
    for (uint64_t k = 0; k < nodes; k++)
        if (out[k].own) return 1;
    return 0;
}

/* The proved part is called first, because it decides whether such a line may be opened. If a handle has a node, or if
 * there is no memory for the C part of the line, the proved nodes are closed again. */
enum qolb_result qolb_open(uint32_t kind, uint64_t label, uint64_t nodes, uint64_t lease, const qolb_bytes *opening,
                           qolb_node *out, size_t handles) {
    qolb_node proved[MOST_NODES] = {{0}};
    size_t room = handles < MOST_NODES ? handles : MOST_NODES;
    uint32_t got = qolb_open_proved_(kind, label, nodes, lease, opening, proved, room);
    if (got != QOLB_DONE && got != QOLB_NO_MEMORY) return got;
    if (is_occupied(out, nodes)) got = QOLB_OCCUPIED;
    struct line *line = got == QOLB_DONE ? new_line(kind, (uint32_t)nodes, proved) : NULL;
    if (line) {
        for (uint64_t k = 0; k < nodes; k++) out[k].own = &line->node[k];
        return QOLB_DONE;
    }
    for (uint64_t k = 0; k < nodes; k++) qolb_close_proved_(&proved[k]);
    return got == QOLB_DONE ? (uint32_t)QOLB_NO_MEMORY : got;
}

static int may_close(struct node *my) {
    uint32_t state = look_at(my).state;
    return state == QOLB_STATE_IDLE || state == QOLB_STATE_LEFT || state == QOLB_STATE_ROLLED ||
           state == QOLB_STATE_SHUT;
}

enum qolb_result qolb_node_free(qolb_node *handle) {
    struct node *my = node_of(handle);
    if (!my || !may_close(my)) return QOLB_MISUSE;
    qolb_notify_off(handle);
    uint32_t got = qolb_close_proved_(&my->proved);
    handle->own = NULL;
    qolb_let_go_(&my->line->callbacks);
    return got;
}

/* Adds up the bytes of all blocks of an open line. The proved part returns those of its table's blocks. The other
 * blocks always have the same sizes, which c/tests/memory.c counts. */
uint64_t qolb_memory(uint32_t kind, uint64_t nodes) {
    enum { TABLE_BLOCKS = 2 };
    uint64_t table = qolb_memory_proved_(kind, nodes);
    if (table == 0) return 0;
    return table + TABLE_BLOCKS * APART + asked_bytes(LAYOUT_LINE_BYTES) + nodes * asked_bytes(LAYOUT_NODE_BYTES) +
           line_bytes((uint32_t)nodes);
}
