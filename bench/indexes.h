/* The two indexes: their sizes, their calls, and what stands beside these in plain C. */
#ifndef INDEXES_H
#define INDEXES_H

#include "bench.h"

struct index {
    size_t slots, width, words, bytes;
    uint64_t (*layout)(uint16_t *table, size_t words, uint8_t *store, size_t bytes);
    search_call *search, *digital_search, *digital_before, *tuned_search;
    check_call *check, *sound_check;
    save_call *save, *plain_save; /* none where the index has no save */
    load_call *load, *plain_load; /* nor a load */
    roster_call *take_roster, *plain_roster; /* nor takes a roster */
    whole_call *whole_search, *whole_counts;
    uint64_t (*insert)(uint16_t *table, size_t words, uint8_t *store, size_t bytes, const uint8_t *label, size_t n,
                       uint16_t value);
    uint64_t (*delete)(uint16_t *table, size_t words, uint8_t *store, size_t bytes, const uint8_t *label, size_t n);
    uint64_t (*listing)(const uint16_t *table, size_t words, const uint8_t *store, size_t bytes, uint16_t *list,
                        size_t room);
    uint64_t (*view)(const uint16_t *table, size_t words, const uint8_t *store, size_t bytes, size_t slot);
};

extern const struct index hub, page;

#endif
