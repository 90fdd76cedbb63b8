/* A save of a sound table in plain C: one walk counts the bytes of the file, and where they fit a second one writes
 * them. */
#include "bench.h"

static const uint16_t *row_of(const uint16_t *table, size_t slot) { return table + 4 + 8 * (slot - 1); }

static size_t groups_of(size_t n)
{
    size_t groups = 1;
    for (; n >= 128; n /= 128)
        groups++;
    return groups;
}

static uint8_t *put_number(uint8_t *at, size_t n)
{
    for (; n >= 128; n /= 128)
        *at++ = (uint8_t)(128 + n % 128);
    *at++ = (uint8_t)n;
    return at;
}

static size_t count_from(const uint16_t *table, size_t link)
{
    if (link == 0)
        return 0;
    const uint16_t *row = row_of(table, link);
    return count_from(table, row[0]) + groups_of(row[5]) + row[5] + groups_of(row[6]) + count_from(table, row[1]);
}

static uint8_t *write_from(const uint16_t *table, const uint8_t *store, uint8_t *at, size_t link)
{
    if (link == 0)
        return at;
    const uint16_t *row = row_of(table, link);
    at = write_from(table, store, at, row[0]);
    at = put_number(at, row[5]);
    memcpy(at, store + WIDTH * (link - 1), row[5]);
    at = put_number(at + row[5], row[6]);
    return write_from(table, store, at, row[1]);
}

uint64_t plain_save(const uint16_t *table, size_t words, const uint8_t *store, size_t bytes, uint8_t *output,
                    size_t room)
{
    if (words != WORDS)
        return refusal(STRAP_WRONG_TABLE);
    if (bytes != BYTES)
        return refusal(STRAP_WRONG_STORE);
    if (groups_of(table[1]) + count_from(table, table[0]) > room)
        return refusal(STRAP_SHORT_OUTPUT);
    uint8_t *end = write_from(table, store, put_number(output, table[1]), table[0]);
    return pack(STRAP_SAVED, 0, 0, (uint64_t)(end - output), 0);
}
