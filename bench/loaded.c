/* A load of a saved file in plain C: the whole file is read and tested first, then its labels are inserted one after
 * another as the index inserts them. A search meets what the load itself has written, and tests none of it. */
#include "inserted.h"

/* ---- the file */

/* What is left of a file to read. */
struct rest {
    const uint8_t *at, *end;
};

struct saved {
    const uint8_t *label;
    size_t len, value;
};

/* Takes a number from `least` to `most`, of three groups at most; false where there is none such. */
static bool take_number(struct rest *rest, size_t least, size_t most, size_t *number)
{
    *number = 0;
    for (unsigned bits = 0; bits < 21 && rest->at != rest->end; bits += 7) {
        uint8_t group = *rest->at++;
        *number |= (size_t)(group & 127) << bits;
        if (group < 128)
            return (group != 0 || bits == 0) && *number >= least && *number <= most;
    }
    return false;
}

/* Takes a label and its value; false where a number is wrong or the label is cut short. */
static bool take_saved(struct rest *rest, struct saved *entry)
{
    if (!take_number(rest, 1, WIDTH, &entry->len) || (size_t)(rest->end - rest->at) < entry->len)
        return false;
    entry->label = rest->at;
    rest->at += entry->len;
    return take_number(rest, 0, 65535, &entry->value);
}

/* Why a file is refused, or 0. Any label is above the one of no bytes that the first is compared with. */
static unsigned refusal_of_file(struct rest rest)
{
    struct saved before = {rest.at, 0, 0}, entry;
    size_t count;
    if (!take_number(&rest, 0, SLOTS, &count))
        return STRAP_BROKEN_FILE;
    for (; count > 0; count--) {
        size_t at = 0;
        if (!take_saved(&rest, &entry))
            return STRAP_BROKEN_FILE;
        if (is_larger(entry.label, entry.len, before.label, before.len, &at) != 1)
            return STRAP_NOT_ASCENDING;
        before = entry;
    }
    return rest.at == rest.end ? 0 : STRAP_BYTES_AFTER;
}

/* ---- the tree */

/* Inserts a label that is not held, into the slot above the high mark. */
static void insert(uint16_t *table, uint8_t *store, const struct saved *entry)
{
    struct way way;
    find_way(false, &way, table, store, entry->label, entry->len);
    hang(table, store, &way, ++table[3], entry->label, entry->len, entry->value);
}

uint64_t plain_load(uint16_t *table, size_t words, uint8_t *store, size_t bytes, const uint8_t *file, size_t n)
{
    struct rest rest = {file, file + n};
    struct saved entry;
    size_t count, loaded;
    if (words != WORDS)
        return refusal(STRAP_WRONG_TABLE);
    if (bytes != BYTES)
        return refusal(STRAP_WRONG_STORE);
    unsigned number = refusal_of_file(rest);
    if (number != 0)
        return refusal(number);
    memset(table, 0, WORDS * sizeof *table);
    memset(store, 0, BYTES);
    take_number(&rest, 0, SLOTS, &count);
    for (loaded = 0; loaded < count; loaded++) {
        take_saved(&rest, &entry);
        insert(table, store, &entry);
    }
    return pack(STRAP_LOADED, 0, 0, loaded, 0);
}
