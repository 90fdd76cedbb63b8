/* The search of the index in C, as digital.c has it, tuned by hand for time: P and S stand in an array by side, and each
 * move is a branch. */
#include "bench.h"
#include <stdbool.h>

/* Why a search is refused before it walks, or 0. */
static inline unsigned refusal_at_once(size_t words, size_t bytes, size_t n)
{
    if (words != WORDS)
        return STRAP_WRONG_TABLE;
    if (bytes != BYTES)
        return STRAP_WRONG_STORE;
    if (n == 0)
        return STRAP_EMPTY_LABEL;
    return n > WIDTH ? STRAP_LONG_LABEL : 0;
}

/* A node whose place, side or length breaks a walk. */
static inline bool is_bad(size_t d, size_t side, size_t len)
{
    return len == 0 || len > WIDTH || d == 0 || d > len + 1 || side > 1;
}

uint64_t tuned_search(const uint16_t *table, size_t words, const uint8_t *store, size_t bytes, const uint8_t *label,
                      size_t n)
{
    unsigned number = refusal_at_once(words, bytes, n);
    if (number != 0)
        return refusal(number);
    size_t at[2] = {1, 1}; /* P and S, by the side of a node */
    size_t visits = 0, places = 0, below = 0, above = 0;
    size_t link = table[0];
    while (link != 0) {
        if (visits >= DEPTH || link > SLOTS)
            return refusal(STRAP_BROKEN_WALK);
        const uint16_t *row = table + 4 + 8 * (link - 1);
        size_t d = row[2], side = row[3], len = row[5];
        if (is_bad(d, side, len))
            return refusal(STRAP_BROKEN_WALK);
        visits++;
        size_t reached = at[side];
        if (reached == d && at[1] <= d) {
            size_t i = d - 1;
            int larger = is_larger(label, n, store + WIDTH * (link - 1), len, &i);
            places += i + 2 - d;
            if (larger < 0)
                return pack(STRAP_FOUND, places, visits, link, row[6]);
            if (larger) {
                at[0] = i + 1;
                below = link;
                link = row[1];
            } else {
                at[1] = i + 1;
                above = link;
                link = row[0];
            }
        } else if ((reached <= d) == (side == 0)) {
            below = link;
            link = row[1];
        } else {
            above = link;
            link = row[0];
        }
    }
    return pack(STRAP_ABSENT, places, visits, below, above);
}
