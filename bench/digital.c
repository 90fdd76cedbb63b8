/* The search of the index in plain C: the same steps, the same refusals, counts and neighbours; and the same without
 * the first line of the steps, as they were before M-106. */
#include "bench.h"
#include <stdbool.h>

static inline __attribute__((always_inline)) uint64_t by_steps(bool first_line, const uint16_t *table, size_t words,
                                                               const uint8_t *store, size_t bytes,
                                                               const uint8_t *label, size_t n)
{
    if (words != WORDS)
        return refusal(STRAP_WRONG_TABLE);
    if (bytes != BYTES)
        return refusal(STRAP_WRONG_STORE);
    if (n == 0)
        return refusal(STRAP_EMPTY_LABEL);
    if (n > WIDTH)
        return refusal(STRAP_LONG_LABEL);
    size_t p = 1, s = 1, visits = 0, places = 0;
    size_t last[2] = {0, 0}; /* the nodes where it went left and right */
    size_t link = table[0];
    while (link != 0) {
        if (visits >= DEPTH || link > SLOTS)
            return refusal(STRAP_BROKEN_WALK);
        const uint16_t *row = table + 4 + 8 * (link - 1);
        size_t d = row[2], side = row[3], len = row[5];
        if (len == 0 || len > WIDTH || d == 0 || d > len + 1 || side > 1)
            return refusal(STRAP_BROKEN_WALK);
        visits++;
        size_t reached = side == 0 ? p : s;
        /* with s above d, what has reached d is p: side successor goes by s */
        if (reached != d || (first_line && s > d)) {
            bool right = (reached <= d) == (side == 0);
            last[right] = link;
            link = row[right];
            continue;
        }
        const uint8_t *held = store + WIDTH * (link - 1);
        size_t i = d - 1;
        int larger = is_larger(label, n, held, len, &i);
        places += i + 2 - d;
        if (larger < 0)
            return pack(STRAP_FOUND, places, visits, link, row[6]);
        if (larger)
            p = i + 1;
        else
            s = i + 1;
        last[larger] = link;
        link = row[larger];
    }
    return pack(STRAP_ABSENT, places, visits, last[1], last[0]);
}

uint64_t digital_search(const uint16_t *table, size_t words, const uint8_t *store, size_t bytes, const uint8_t *label,
                        size_t n)
{
    return by_steps(true, table, words, store, bytes, label, n);
}

uint64_t digital_before(const uint16_t *table, size_t words, const uint8_t *store, size_t bytes, const uint8_t *label,
                        size_t n)
{
    return by_steps(false, table, words, store, bytes, label, n);
}
