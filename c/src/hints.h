/* Prefetches the cache lines that a node is about to read or write, for the polls and releases in calls.c. The result
 * of a call never depends on a prefetch; a wrong prefetch only costs time.
 *
 * When a node of a ring or of a ticket line is granted the line, it reads the line's bytes from a slot that its
 * predecessor wrote just before the grant. Therefore the node prefetches this slot whenever it polls. When a poll finds
 * the grant, the slot arrives at the same time as the polled cell. An earlier prefetch does not delay the predecessor:
 * when the predecessor writes to the slot, its processor fetches the slot and the next node's cell at the same time.
 *
 * A hand-over in a link line writes to four cache lines that other threads wrote last: the line's bytes, the word that
 * names the last request, the holder's entry in the queue, and its successor's entry (crates/link_line). Each step of
 * the hand-over starts when the previous step has ended, so without prefetching the four cache lines arrive one after
 * the other. With prefetching they arrive at the same time. */
#ifndef QOLB_HINTS_H
#define QOLB_HINTS_H

#include "line.h"
#include <stdatomic.h>

/* In an entry: the bit that says whether its node is granted the line, and the unit of the successor's number. */
enum { IS_GRANTED = LAYOUT_ENTRY_GRANTED, LINK_UNIT = LAYOUT_ENTRY_LINK };

static inline void will_read(const volatile void *at) {
    __asm__ volatile("prefetcht0 %0" : : "m"(*(const volatile char *)at));
}

/* A processor that does not have this instruction does nothing. */
static inline void will_write(const volatile void *at) {
    __asm__ volatile("prefetchw %0" : : "m"(*(const volatile char *)at));
}

/* Reads an address that lies `behind` bytes from the beginning of a block of the proved part. ../proved/layout.c finds
 * these distances. */
static inline char *address_in(const void *block, size_t behind) {
    return *(char *const *)((const char *)block + behind);
}

static inline const char *proved_line_of(const struct node *my) {
    return address_in(my->proved.own, LAYOUT_NODE_TO_LINE);
}

/* Returns the first slot of the node's line. */
static inline const char *slots_of(const struct node *my) {
    return address_in(proved_line_of(my), LAYOUT_LINE_TO_SLOTS);
}

/* Returns the slot that a node which waits at this word will read: that of the word's cell in a ticket line, and the
 * only slot in others. */
static inline const char *slot_at(const struct node *my, uint64_t word) {
    if (my->line->kind != QOLB_TICKET) return slots_of(my);
    return slots_of(my) + word / LAYOUT_PLACE_WORDS * LAYOUT_SLOT_BYTES;
}

/* Return the word of the last request of a link line, and the entry of a node. */
static inline _Atomic uint64_t *home_of_link(const struct node *my) {
    return (_Atomic uint64_t *)address_in(proved_line_of(my), LAYOUT_LINE_TO_WORDS);
}

static inline _Atomic uint64_t *entry_of(const struct node *my, uint64_t number) {
    return home_of_link(my) + LAYOUT_PLACE_WORDS * number;
}

static inline _Atomic uint64_t *own_entry(const struct node *my) {
    return entry_of(my, (uint64_t)(my - my->line->node) + 1);
}

/* Prefetches for a node of a link line that is granted the line: it will write the bytes and its own entry. It leaves
 * the word of the last request alone, because the node that handed the line over may need it to request the line again.
 */
static inline void hint_turn_of_link(const struct node *my, const char *slot) {
    _Atomic uint64_t *own = own_entry(my);
    if (!(atomic_load_explicit(own, memory_order_relaxed) & IS_GRANTED)) return;
    will_write(slot);
    will_write(own);
}

/* Prefetches before a poll. `slot` is slot_at of the node's word. */
static inline void hint_turn(const struct node *my, const char *slot) {
    if (my->line->kind == QOLB_LINK) hint_turn_of_link(my, slot);
    else will_read(slot);
}

/* Prefetches before a release of a link line. The entry says whether a successor has linked itself. */
static inline void hint_release(const struct node *my) {
    _Atomic uint64_t *own = own_entry(my);
    will_write(own);
    will_write(home_of_link(my));
    uint64_t next = atomic_load_explicit(own, memory_order_relaxed) / LINK_UNIT;
    if (next) will_write(entry_of(my, next));
}

#endif
