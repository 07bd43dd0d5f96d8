/* The functions with which the proved part of the library allocates memory. Their names begin with rattle_, and they
 * call the program's malloc and free.
 *
 * Two nodes should not share a cache line, because each call of a thread writes to the block of its node, and to words
 * and slots of the line. Therefore each of these blocks begins at a multiple of 128 bytes, and no other block begins
 * within its last 128 bytes. So no cache line contains data of two nodes. The same holds for each pair of cache lines
 * that the processor fetches together. A slot, which contains the 64 bytes of a line and the data that belong to them,
 * lies within one such pair. Data that all nodes of a line read and none writes are in a smaller block. */
#include "heap.h"
#include <stdint.h>
#include <stdlib.h>
#include <string.h>

BY_THREAD struct core_arena *qolb_core_arena_;

/* The result of an allocation. `at` is never NULL: if there is no memory, it is the address of a byte that nobody uses.
 */
struct tried {
    uint64_t is_there;
    void *at;
};

HIDDEN struct tried rattle_alloc(size_t size, size_t align);
HIDDEN struct tried rattle_realloc(void *block, size_t kept, size_t size, size_t align);
HIDDEN void rattle_dealloc(void *block);

/* Returns the next block of the core that the thread opens, or NULL if the thread opens no lock. The block must be as
 * large as the arena's next one. */
static void *given_by_lock(size_t size) {
    static const size_t sizes[CORE_BLOCKS] = {LAYOUT_CORE_WORDS_BYTES, LAYOUT_CORE_SLOTS_BYTES,
                                              LAYOUT_CORE_BLOCK_BYTES};
    struct core_arena *arena = qolb_core_arena_;
    if (!arena) return NULL;
    if (arena->taken == CORE_BLOCKS || size != sizes[arena->taken]) __builtin_trap();
    return arena->block[arena->taken++];
}

/* Allocates a block by malloc, which returns a multiple of 16 bytes, so that there is room for a `struct before`. */
static void *block_of(size_t size) {
    char *given = size <= SIZE_MAX - 2 * APART ? malloc(asked_bytes(size)) : NULL;
    if (!given) return NULL;
    char *block = given + (is_small(size) ? sizeof(struct before) : APART - (uintptr_t)given % APART);
    ((struct before *)block - 1)->given = given;
    return block;
}

void *qolb_malloc_(size_t size) {
    void *of_lock = given_by_lock(size);
    return of_lock ? of_lock : block_of(size);
}

void qolb_free_(void *block) {
    if (block) free(((struct before *)block - 1)->given);
}

/* A block of 0 bytes gets as many bytes as its alignment, which is at most 16. */
struct tried rattle_alloc(size_t size, size_t align) {
    static char nothing;
    void *block = qolb_malloc_(size ? size : align);
    return block ? (struct tried){1, block} : (struct tried){0, &nothing};
}

/* `kept` is the number of bytes that the block has. */
struct tried rattle_realloc(void *block, size_t kept, size_t size, size_t align) {
    struct tried moved = rattle_alloc(size, align);
    if (!moved.is_there) return moved;
    memcpy(moved.at, block, kept < size ? kept : size);
    qolb_free_(block);
    return moved;
}

void rattle_dealloc(void *block) { qolb_free_(block); }
