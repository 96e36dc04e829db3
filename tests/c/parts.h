/* The parts of a record from the mark on, and with them all that sievelast_store.h's two functions take, in their order: as parameters,
 * and passed on. For test code that stands in the archive's place or between it and a test. */
#ifndef TESTS_PARTS_H
#define TESTS_PARTS_H
#include "sievelast_store.h"

#define PARTS                                                                                                                      \
    uint64_t *highwater, uint8_t keys[SIEVELAST_RECORD_KEYS], uint32_t tables[SIEVELAST_RECORD_TABLES],                            \
        uint64_t lengths[SIEVELAST_MEMORIES], uint32_t entries[SIEVELAST_RECORD_ENTRIES], uint64_t times[SIEVELAST_RECORD_PLACES]

#define PARTS_PASSED highwater, keys, tables, lengths, entries, times

#define FORMAT_PARAMETERS                                                                                                          \
    uint64_t *size, PARTS, uint8_t *medium, size_t medium_len, uint32_t first, const uint8_t *master, size_t master_len,           \
        const uint8_t *key, size_t key_len

#define FORMAT_PASSED size, PARTS_PASSED, medium, medium_len, first, master, master_len, key, key_len

#define GATE_PARAMETERS                                                                                                            \
    uint64_t size, PARTS, uint8_t *medium, size_t medium_len, const uint8_t *frame, size_t frame_len, uint64_t clock,              \
        uint8_t *reply, size_t reply_len

#define GATE_PASSED size, PARTS_PASSED, medium, medium_len, frame, frame_len, clock, reply, reply_len
#endif
