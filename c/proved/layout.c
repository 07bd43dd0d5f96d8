/* Prints the numbers of qolb_layout.h, one on each line in the order of the header. These are NODES numbers that the
 * nodes return (crates/qolb_nodes/src/layout.rt), LOCKS numbers that the locks return
 * (crates/qolb_locks/src/layout.rt), and the sizes of the blocks that opening a line or a lock allocates.
 * tools/snapshot writes the header by this program, and `make -C c check` compares the two.
 *
 *   layout NODES LOCKS
 *
 * The program is linked with the proved part alone, so it has functions of its own for the memory of the proved part.
 */
#include "../src/proved.h"
#include <stdio.h>
#include <stdlib.h>
#include <string.h>

struct tried {
    uint64_t is_there;
    void *at;
};

struct tried rattle_alloc(size_t size, size_t align);
struct tried rattle_realloc(void *block, size_t kept, size_t size, size_t align);
void rattle_dealloc(void *block);
uint32_t qolb_core_open_proved_(uint64_t barging_limit, uint64_t label, void *out);
void qolb_core_layout_proved_(uint64_t *numbers);

/* The blocks that are allocated now, in the order of their allocation. */
enum { MOST = 64 };
static struct {
    void *at;
    size_t size;
} blocks[MOST];
static int many;

static void fail(const char *what) {
    fprintf(stderr, "layout: %s\n", what);
    exit(1);
}

static void forget(const void *block) {
    int k = 0;
    while (k < many && blocks[k].at != block) k++;
    if (k == many) fail("a block is freed that was not allocated");
    memmove(blocks + k, blocks + k + 1, (size_t)(--many - k) * sizeof *blocks);
}

/* As in ../src/heap.c, a block of no bytes has as many as its alignment. */
struct tried rattle_alloc(size_t size, size_t align) {
    if (!size) size = align;
    void *at = malloc(size);
    if (!at || many == MOST) fail("too many blocks");
    blocks[many].at = at;
    blocks[many++].size = size;
    return (struct tried){1, at};
}

struct tried rattle_realloc(void *block, size_t kept, size_t size, size_t align) {
    struct tried moved = rattle_alloc(size, align);
    memcpy(moved.at, block, kept < size ? kept : size);
    rattle_dealloc(block);
    return moved;
}

void rattle_dealloc(void *block) {
    forget(block);
    free(block);
}

/* Of each kind of line: the words, the slots, what all nodes share, and the nodes. */
enum { WORDS, SLOTS, SHARED, FIRST_NODE, NODES = 1 };

/* How far behind the beginning of one block the address of another lies. */
static size_t address_in(int block, int of) {
    for (size_t behind = 0; behind + sizeof(void *) <= blocks[block].size; behind += sizeof(void *))
        if (memcmp((const char *)blocks[block].at + behind, &blocks[of].at, sizeof(void *)) == 0) return behind;
    fail("a block does not have the address of another");
    return 0;
}

/* What is measured of each kind of line, in the order of the header: the bytes of one slot, of the block that the nodes
 * share, and of a node's; and where these have the addresses of other blocks. */
struct measured {
    size_t slot, line, node, node_to_line, line_to_words, line_to_slots;
};

static struct measured measure_line(uint32_t kind) {
    qolb_bytes zeros = {{0}};
    qolb_node nodes[NODES] = {{0}};
    many = 0;
    if (qolb_open_proved_(kind, 1, NODES, QOLB_NO_LEASE, &zeros, nodes, NODES) != QOLB_DONE) fail("no line");
    if (many != FIRST_NODE + NODES || nodes[0].own != blocks[FIRST_NODE].at) fail("a line has other blocks");
    return (struct measured){.slot = blocks[SLOTS].size,
                             .line = blocks[SHARED].size,
                             .node = blocks[FIRST_NODE].size,
                             .node_to_line = address_in(FIRST_NODE, SHARED),
                             .line_to_words = address_in(SHARED, WORDS),
                             .line_to_slots = address_in(SHARED, SLOTS)};
}

/* A ring has one slot, and a ticket line several. */
static struct measured measure_lines(void) {
    struct measured ring = measure_line(QOLB_RING);
    for (uint32_t kind = QOLB_RING + 1; kind < QOLB_KINDS; kind++) {
        struct measured other = measure_line(kind);
        other.slot = ring.slot;
        if (memcmp(&other, &ring, sizeof ring) != 0) fail("kinds of lines have other sizes");
    }
    return ring;
}

/* Prints the numbers that a crate returns, of which there are this many. */
static void print_told(void (*tell)(uint64_t *numbers), const char *many_told) {
    enum { MOST_TOLD = 256 };
    uint64_t told[MOST_TOLD];
    size_t count = strtoul(many_told, NULL, 10);
    if (count == 0 || count >= MOST_TOLD) fail("the command is: layout NODES LOCKS");
    memset(told, 0xff, sizeof told);
    tell(told);
    if (told[count - 1] == UINT64_MAX || told[count] != UINT64_MAX)
        fail("the proved part tells another count of numbers");
    for (size_t k = 0; k < count; k++) printf("%llu\n", (unsigned long long)told[k]);
}

int main(int argc, char **argv) {
    if (argc != 3) fail("the command is: layout NODES LOCKS");
    print_told(qolb_layout_proved_, argv[1]);
    print_told(qolb_core_layout_proved_, argv[2]);

    const void *lock;
    struct measured it = measure_lines();
    printf("%zu\n%zu\n%zu\n%zu\n%zu\n%zu\n", it.slot, it.line, it.node, it.node_to_line, it.line_to_words,
           it.line_to_slots);
    many = 0;
    if (qolb_core_open_proved_(0, 1, &lock) != QOLB_DONE) fail("no lock");
    if (many != 3 || lock != blocks[2].at) fail("a lock has other blocks");
    for (int k = 0; k < many; k++) printf("%zu\n", blocks[k].size);
    return 0;
}
