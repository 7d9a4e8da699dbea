/* Buffers between pages that can't be touched, and whether a call left in them what it has to. */
#ifndef GUARDED_H
#define GUARDED_H

#include <stdbool.h>
#include <stdint.h>
#include <stdio.h>
#include <stdlib.h>
#include <string.h>
#include <sys/mman.h>

#define PAGE ((size_t)4096)
#define SLOT_BYTES ((size_t)8 << 20)
#define SLOTS 8
/* Bytes on the side that has no such page at hand. */
#define MARGIN ((size_t)64)
#define MARGIN_BYTE 0xC3

/* A buffer of `size` bytes, right before a page that can't be read or right after one, and what it held. */
struct slot {
    uint8_t *room, *copy, *data;
    size_t size;
    bool at_end;
};

static struct slot slots[SLOTS];

static void make_slots(void) {
    for (int i = 0; i < SLOTS; i++) {
        uint8_t *at = mmap(NULL, SLOT_BYTES + 2 * PAGE, PROT_NONE, MAP_PRIVATE | MAP_ANONYMOUS, -1, 0);
        if (at == MAP_FAILED || mprotect(at + PAGE, SLOT_BYTES, PROT_READ | PROT_WRITE) != 0) {
            perror("pages");
            exit(1);
        }
        slots[i].room = at + PAGE;
        slots[i].copy = malloc(SLOT_BYTES);
        if (!slots[i].copy) exit(1);
    }
}

static uint8_t *margin_of(const struct slot *slot) {
    return slot->at_end ? slot->data - MARGIN : slot->data + slot->size;
}

/* Places a buffer of `count` items of `item` bytes in a slot; a null pointer stands for it where it is empty and
 * `may_be_null`. */
static void *place(struct slot *slot, size_t count, size_t item, bool at_end, bool may_be_null) {
    slot->size = count * item;
    if (slot->size > SLOT_BYTES - MARGIN) abort();
    slot->at_end = at_end;
    slot->data = at_end ? slot->room + SLOT_BYTES - slot->size : slot->room;
    memset(margin_of(slot), MARGIN_BYTE, MARGIN);
    return slot->size == 0 && may_be_null ? NULL : slot->data;
}

/* Notes what the slot holds, before a call. */
static void keep(struct slot *slot) { memcpy(slot->copy, slot->data, slot->size); }

/* Whether the slot holds what it held, but for its first `written` bytes, and nothing beside it was written. */
static bool is_kept(const struct slot *slot, size_t written) {
    const uint8_t *margin = margin_of(slot);
    for (size_t i = 0; i < MARGIN; i++)
        if (margin[i] != MARGIN_BYTE) return false;
    return written <= slot->size && memcmp(slot->data + written, slot->copy + written, slot->size - written) == 0;
}

/* Numbers that repeat for a seed. */
static uint64_t drawn_state = 1;
static uint64_t drawn(void) {
    drawn_state += 0x9E3779B97F4A7C15;
    uint64_t z = drawn_state;
    z = (z ^ z >> 30) * 0xBF58476D1CE4E5B9;
    z = (z ^ z >> 27) * 0x94D049BB133111EB;
    return z ^ z >> 31;
}
static size_t below(size_t bound) { return (size_t)(drawn() % bound); }
static bool one_in(size_t bound) { return below(bound) == 0; }

static void fill(struct slot *slot) {
    for (size_t i = 0; i < slot->size; i += 8) {
        const uint64_t word = drawn();
        memcpy(slot->data + i, &word, slot->size - i < 8 ? slot->size - i : 8);
    }
}

#endif
