/* Tests that a node prefetches the words and slots that it is about to read and write during a hand-over
 * (../src/hints.h). Prints only errors. */
#define _GNU_SOURCE
#include <hints.h>
#include <stdio.h>
#include <stdlib.h>
#include <string.h>

enum { MOST = 200 };

#define CHECK(holds)                                                               \
    do {                                                                           \
        if (!(holds)) printf("hints.c, line %d: %s\n", __LINE__, #holds), exit(1); \
    } while (0)

static qolb_node node[MOST];

/* The slot of a node that waits. */
static const char *slot_of(const qolb_node *it) {
    struct node *my = node_of(it);
    return slot_at(my, look_at(my).wait_word);
}

static uint64_t read_word(const _Atomic uint64_t *word) { return atomic_load(word); }

static void open_line(uint32_t kind, uint64_t nodes, const qolb_bytes *opening) {
    CHECK(qolb_open(kind, 1, nodes, QOLB_NO_LEASE, opening, node, MOST) == QOLB_DONE);
}

static void close_line(uint64_t nodes) {
    for (uint64_t k = 0; k < nodes; k++) CHECK(qolb_node_free(&node[k]) == QOLB_DONE);
}

/* Tests a link line: node 2 has the line, and node 3 waits for it and gets it. */
static void hand_over_link(const qolb_bytes *opening) {
    struct node *my = node_of(&node[1]);
    qolb_bytes bytes = *opening;
    uint64_t was;
    CHECK(memcmp(slots_of(my), opening, sizeof *opening) == 0);
    CHECK(qolb_enqolb(&node[1]) == QOLB_GRANTED);
    CHECK(read_word(home_of_link(my)) == 2);
    CHECK(qolb_enqolb(&node[2]) == QOLB_QUEUED);
    CHECK(read_word(home_of_link(my)) == 3);
    CHECK(own_entry(my) == entry_of(my, 2));
    CHECK(read_word(own_entry(my)) / LINK_UNIT == 3);
    CHECK(!(read_word(entry_of(my, 3)) & IS_GRANTED));
    CHECK(qolb_add_lane(&node[1], 0, 5, &was) == QOLB_DONE && qolb_deqolb(&node[1]) == QOLB_DONE);
    CHECK(read_word(entry_of(my, 3)) & IS_GRANTED);
    bytes.byte[0] += 5;
    CHECK(memcmp(slots_of(my), &bytes, sizeof bytes) == 0);
    CHECK(qolb_poll(&node[2]) == QOLB_GRANTED && qolb_deqolb(&node[2]) == QOLB_DONE);
    CHECK(read_word(home_of_link(my)) == 0);
}

/* Tests a line of another kind: two nodes have it alternately, and each finds the bytes of the other node in its slot
 * once it is granted the line. In a ticket line, all slots are used. */
static void hand_over(uint32_t kind, const qolb_bytes *opening) {
    enum { TURNS = 2 * 256 };
    qolb_bytes bytes = *opening;
    const char *first = slot_of(&node[0]);
    int apart = 0;
    uint64_t was;
    CHECK(qolb_enqolb(&node[0]) == QOLB_GRANTED);
    for (int k = 0; k < TURNS; k++) {
        qolb_node *holder = &node[k % 2], *next = &node[(k + 1) % 2];
        CHECK(qolb_enqolb(next) == QOLB_QUEUED);
        const char *slot = slot_of(next);
        CHECK(qolb_add_lane(holder, 0, 1, &was) == QOLB_DONE);
        CHECK(kind == QOLB_RING || memcmp(slot, &bytes, sizeof bytes) != 0 || k == 0);
        CHECK(qolb_read(holder, &bytes) == QOLB_DONE && qolb_deqolb(holder) == QOLB_DONE);
        CHECK(memcmp(slot, &bytes, sizeof bytes) == 0);
        CHECK(qolb_poll(next) == QOLB_GRANTED);
        apart |= slot != first;
    }
    CHECK(apart == (kind == QOLB_TICKET));
    CHECK(qolb_deqolb(&node[TURNS % 2]) == QOLB_DONE);
}

/* Checks that all nodes of a line have the same slots and words, and that each has an entry of its own. */
static void check_hints(uint32_t kind, uint64_t nodes) {
    const struct node *first = node_of(&node[0]);
    for (uint64_t k = 0; k < nodes; k++) {
        const struct node *my = node_of(&node[k]);
        CHECK(slots_of(my) == slots_of(first));
        CHECK(kind != QOLB_LINK || own_entry(my) == entry_of(first, k + 1));
    }
}

int main(void) {
    static const uint64_t counts[] = {1, 2, 3, 8, 16, 64, MOST};
    qolb_bytes opening;
    for (size_t k = 0; k < sizeof opening.byte; k++) opening.byte[k] = (uint8_t)(k + 1);
    for (uint32_t kind = 0; kind < QOLB_KINDS; kind++)
        for (size_t n = 0; n < sizeof counts / sizeof counts[0]; n++) {
            open_line(kind, counts[n], &opening);
            check_hints(kind, counts[n]);
            if (kind == QOLB_LINK && counts[n] >= 3) hand_over_link(&opening);
            if (kind != QOLB_LINK && counts[n] >= 2) hand_over(kind, &opening);
            close_line(counts[n]);
        }
    return 0;
}
