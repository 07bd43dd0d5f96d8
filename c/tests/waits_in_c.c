/* C functions that wait for a line and release it, with the nodes of a Rust program (waits.rs). */
#include <qolb.h>

struct calls {
    uint32_t (*acquire)(qolb_node *node);
    uint32_t (*acquire_within)(qolb_node *node, uint64_t nanoseconds);
    uint32_t (*deqolb)(qolb_node *node);
    uint32_t (*shut)(qolb_node *node);
};

const struct calls *calls_in_c(void);

static uint32_t acquires(qolb_node *node) { return qolb_acquire(node); }
static uint32_t acquires_within(qolb_node *node, uint64_t nanoseconds) {
    return qolb_acquire_within(node, nanoseconds);
}
static uint32_t releases(qolb_node *node) { return qolb_deqolb(node); }
static uint32_t shuts(qolb_node *node) { return qolb_shut(node); }

const struct calls *calls_in_c(void) {
    static const struct calls calls = {acquires, acquires_within, releases, shuts};
    return &calls;
}
