/* The soundness test in plain C: every word and byte is as a list of calls could leave it. */
#include "bench.h"
#include <stdbool.h>

struct memory {
    const uint16_t *table;
    const uint8_t *store;
};

static const uint16_t *row_of(const struct memory *m, size_t slot)
{
    return m->table + 4 + 8 * (slot - 1);
}

static const uint8_t *label_of(const struct memory *m, size_t slot)
{
    return m->store + WIDTH * (slot - 1);
}

static bool zero_bytes(const uint8_t *bytes, size_t from, size_t to)
{
    for (size_t i = from; i < to; i++)
        if (bytes[i] != 0)
            return false;
    return true;
}

static bool zero_words(const uint16_t *words, size_t from, size_t to)
{
    for (size_t i = from; i < to; i++)
        if (words[i] != 0)
            return false;
    return true;
}

static bool is_charge(uint16_t word) { return word <= 100 || word == STRAP_UNKNOWN_CHARGE; }

/* The difference place of two labels that ascend, or 0. */
static size_t ascend(const uint8_t *a, size_t m, const uint8_t *b, size_t n)
{
    size_t end = m < n ? m : n, i = 0;
    for (;;) {
        while (i < end && a[i] == b[i])
            i++;
        if (i == end)
            return m < n ? i + 1 : 0;
        uint8_t x = number_of[a[i]], y = number_of[b[i]];
        i++;
        if (x < y)
            return i;
        if (x > y)
            return 0;
    }
}

/* The subtree at a link between the slots below and above: its height, or -1; its nodes are added to the count. */
static int height_of(const struct memory *m, int left, size_t link, size_t below, size_t above, size_t *count)
{
    if (link == 0)
        return 0;
    if (left == 0 || link > SLOTS)
        return -1;
    const uint16_t *row = row_of(m, link);
    const uint8_t *label = label_of(m, link);
    size_t len = row[5];
    if (len < 1 || len > WIDTH || !is_charge(row[7]) || !zero_bytes(label, len, WIDTH))
        return -1;
    size_t lower = 0, upper = 0;
    if (below != 0 && (lower = ascend(label_of(m, below), row_of(m, below)[5], label, len)) == 0)
        return -1;
    if (above != 0 && (upper = ascend(label, len, label_of(m, above), row_of(m, above)[5])) == 0)
        return -1;
    size_t place = lower > upper ? lower : upper;
    if (row[2] != (place > 1 ? place : 1) || row[3] != (upper > lower))
        return -1;
    int low = height_of(m, left - 1, row[0], below, link, count);
    if (low < 0)
        return -1;
    int high = height_of(m, left - 1, row[1], link, above, count);
    if (high < 0 || low > high + 1 || high > low + 1 || row[4] != high - low + 1)
        return -1;
    ++*count;
    return (low > high ? low : high) + 1;
}

static bool chain_is(const struct memory *m, size_t high, size_t freed, size_t link)
{
    for (; freed > 0; freed--) {
        if (link < 1 || link > high)
            return false;
        const uint16_t *row = row_of(m, link);
        if (!zero_words(row, 1, 8) || !zero_bytes(label_of(m, link), 0, WIDTH))
            return false;
        link = row[0];
    }
    return link == 0;
}

uint64_t sound_check(const uint16_t *table, size_t words, const uint8_t *store, size_t bytes)
{
    if (words != WORDS)
        return pack(STRAP_REFUSED, 0, 0, STRAP_WRONG_TABLE, 0);
    if (bytes != BYTES)
        return pack(STRAP_REFUSED, 0, 0, STRAP_WRONG_STORE, 0);
    struct memory m = {table, store};
    size_t held = table[1], high = table[3], count = 0;
    if (held <= high && high <= SLOTS && zero_words(table, 4 + 8 * high, WORDS) &&
        zero_bytes(store, WIDTH * high, BYTES) && height_of(&m, DEPTH, table[0], 0, 0, &count) >= 0 && count == held &&
        chain_is(&m, high, high - held, table[2]))
        return pack(STRAP_DONE, 0, 0, 0, 0);
    return pack(STRAP_REFUSED, 0, 0, STRAP_NOT_SOUND, 0);
}
