/* An entry of a replay memory as the record has it: its numbers together in `entries`, its time in `times`. What a test says of an
 * entry's numbers goes through here. */
#ifndef TESTS_ENTRY_H
#define TESTS_ENTRY_H
#include "sievelast_store.h"

enum { ENTRY_SLOT, ENTRY_HOLDER, ENTRY_COUNT, ENTRY_OBJECT };

/* The numbers of the entry at a place, in a record's `entries`. */
static inline uint32_t *entry_at(uint32_t *entries, size_t place) { return entries + place * SIEVELAST_RECORD_ENTRY; }
static inline const uint32_t *entry_seen(const uint32_t *entries, size_t place) { return entries + place * SIEVELAST_RECORD_ENTRY; }

/* Bytes of the numbers of so many entries. */
static inline size_t entry_bytes(size_t entries) { return entries * SIEVELAST_RECORD_ENTRY * sizeof(uint32_t); }

/* The place of a memory's first entry. */
static inline size_t first_place(int memory) { return (size_t)memory * SIEVELAST_MOST_ENTRIES; }
#endif
