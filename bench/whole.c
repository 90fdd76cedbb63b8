/* The same height-balanced tree, in the same words, searched by comparing whole labels. The store's bytes are folded,
 * and the label sought is folded once. */
#include "bench.h"
#include <string.h>

uint64_t whole_search(const uint16_t *table, const uint8_t *store, const uint8_t *label, size_t n)
{
    uint8_t sought[WIDTH];
    if (n > WIDTH)
        return 0;
    fold(sought, label, n);
    size_t link = table[0];
    while (link != 0) {
        const uint16_t *row = table + 4 + 8 * (link - 1);
        size_t len = row[5];
        int order = memcmp(sought, store + WIDTH * (link - 1), n < len ? n : len);
        if (order == 0) {
            if (n == len)
                return (uint64_t)row[6] + 1;
            order = n < len ? -1 : 1;
        }
        link = row[order > 0];
    }
    return 0;
}

/* Visits, and places counted as in the index: each comparison from place 1 up to the difference or the shared end. */
uint64_t whole_counts(const uint16_t *table, const uint8_t *store, const uint8_t *label, size_t n)
{
    size_t link = table[0], visits = 0, places = 0;
    while (link != 0) {
        const uint16_t *row = table + 4 + 8 * (link - 1);
        const uint8_t *held = store + WIDTH * (link - 1);
        size_t len = row[5], i = 0;
        int larger = is_larger(label, n, held, len, &i);
        visits++;
        places += i + 1;
        if (larger < 0)
            return pack(STRAP_FOUND, places, visits, link, row[6]);
        link = row[larger];
    }
    return pack(STRAP_ABSENT, places, visits, 0, 0);
}
