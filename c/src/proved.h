/* The proved calls on nodes, as crates/qolb_nodes/src/lib.rt exports them. calls.c and line.c make these calls. The
 * name of a proved call, without its ending _proved_, is the name of the call in qolb.h that makes it. core.h has the
 * proved calls on locks.
 *
 * No call can check the following rules, which the callers must keep (docs/PROVED.md). A handle consists of zeros, or
 * is as the last call with this handle left it. At most one call uses a handle at a time. A handle may be moved, but it
 * must not be copied. Each other argument points to a valid object of its type, which overlaps neither another argument
 * nor the handle. */
#ifndef QOLB_PROVED_H
#define QOLB_PROVED_H

#include "qolb.h"

uint32_t qolb_open_proved_(uint32_t kind, uint64_t label, uint64_t nodes, uint64_t lease, const qolb_bytes *opening,
                           qolb_node *out, size_t handles);
uint32_t qolb_enqolb_proved_(qolb_node *node);
uint32_t qolb_poll_proved_(qolb_node *node);
uint32_t qolb_wait_proved_(qolb_node *node, uint64_t polls);
uint32_t qolb_withdraw_proved_(qolb_node *node);
uint32_t qolb_prepend_proved_(qolb_node *node);
uint32_t qolb_link_proved_(qolb_node *node);
uint32_t qolb_read_proved_(qolb_node *node, qolb_bytes *out);
uint32_t qolb_write_proved_(qolb_node *node, uint64_t mask, const qolb_bytes *bytes);
uint32_t qolb_read_lane_proved_(qolb_node *node, uint64_t lane, uint64_t *out);
uint32_t qolb_write_lane_proved_(qolb_node *node, uint64_t lane, uint64_t value);
uint32_t qolb_add_lane_proved_(qolb_node *node, uint64_t lane, uint64_t by, uint64_t *was);
uint32_t qolb_clear_proved_(qolb_node *node);
uint32_t qolb_deqolb_proved_(qolb_node *node);
uint32_t qolb_shut_proved_(qolb_node *node);
uint32_t qolb_close_proved_(qolb_node *node);
uint64_t qolb_memory_proved_(uint32_t kind, uint64_t nodes);
/* Writes the first LAYOUT_TOLD_OF_NODES numbers of ../proved/qolb_layout.h, in the order of that file. */
void qolb_layout_proved_(uint64_t *numbers);

/* What a node is, and where it waits. For an empty handle, `number`, `label`, `turns_left` and `state` are 0, and the
 * words are UINT64_MAX. Each word is the number of a word of the node's line on which nodes wait. The number only names
 * a place. */
struct qolb_look {
    uint64_t number, label, turns_left; /* as the calls of qolb.h with these names return them */
    uint64_t wait_word;                 /* the place of the node's own request, which stays the same until its grant */
    /* The place of the next holder, and that of the waiter behind the next holder, after the node's last release or
     * after it was told that the line is closed. The first is proved, the second is not. If there is no such node, they
     * are numbers at which no node waits. */
    uint64_t went_to, went_ahead;
    uint32_t state; /* enum qolb_node_state */
};

/* Writes what the node is, and where it waits. Reads no word of the line. */
void qolb_look_proved_(qolb_node *node, struct qolb_look *out);

#endif
