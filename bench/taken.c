/* A roster taken in plain C: the text is read record by record, a byte at a time, as RFC 4180 has it, and each record's
 * label is inserted as the index inserts it. The table is taken for sound. */
#include "inserted.h"

/* ---- the text */

/* What is left of a text to read. */
struct rest {
    const uint8_t *at, *end;
};

/* A field: its bytes, without the quotes around them, and how many of these are the second of two quotes. */
struct field {
    const uint8_t *bytes;
    size_t len, doubled;
};

static bool is_textdata(uint8_t byte)
{
    return byte >= ' ' && byte <= '~' && byte != '"' && byte != ',';
}

static bool is_inner(uint8_t byte)
{
    return is_textdata(byte) || byte == ',' || byte == '\r' || byte == '\n';
}

static void take_bare(struct rest *rest, struct field *field)
{
    field->bytes = rest->at;
    while (rest->at != rest->end && is_textdata(*rest->at))
        rest->at++;
    field->len = (size_t)(rest->at - field->bytes);
    field->doubled = 0;
}

/* A field after its first quote, and the quote that closes it; false where there is none such. */
static bool take_quoted(struct rest *rest, struct field *field)
{
    field->bytes = rest->at;
    field->doubled = 0;
    while (rest->at != rest->end) {
        uint8_t byte = *rest->at++;
        if (byte == '"') {
            if (rest->at == rest->end || *rest->at != '"') {
                field->len = (size_t)(rest->at - field->bytes) - 1;
                return true;
            }
            rest->at++;
            field->doubled++;
        } else if (!is_inner(byte)) {
            return false;
        }
    }
    return false;
}

static bool take_field(struct rest *rest, struct field *field)
{
    if (rest->at != rest->end && *rest->at == '"') {
        rest->at++;
        return take_quoted(rest, field);
    }
    take_bare(rest, field);
    return true;
}

/* The value that a field writes; false where it is none. */
static bool read_value(const struct field *field, size_t *value)
{
    *value = 0;
    if (field->len == 0 || field->len > 5 || (field->len > 1 && field->bytes[0] == '0'))
        return false;
    for (size_t i = 0; i < field->len; i++) {
        if (field->bytes[i] < '0' || field->bytes[i] > '9')
            return false;
        *value = *value * 10 + (field->bytes[i] - '0');
    }
    return *value <= 65535;
}

/* Takes a record, its CRLF too where the text does not end before that; false where it is broken. */
static bool take_record(struct rest *rest, struct field *label, size_t *value)
{
    struct field second;
    if (!take_field(rest, label) || rest->at == rest->end || *rest->at++ != ',' || !take_field(rest, &second))
        return false;
    if (rest->at != rest->end) {
        if (rest->end - rest->at < 2 || rest->at[0] != '\r' || rest->at[1] != '\n')
            return false;
        rest->at += 2;
    }
    return read_value(&second, value);
}

/* ---- the tree */

/* Takes the slot freed last, or the one above the high mark. */
static uint16_t take_slot(uint16_t *table)
{
    uint16_t slot = table[2];
    if (slot == 0)
        return ++table[3];
    table[2] = row_of(table, slot)[LEFT];
    row_of(table, slot)[LEFT] = 0;
    return slot;
}

/* Why a label is refused, or 0: it is inserted. */
static unsigned insert(uint16_t *table, uint8_t *store, const uint8_t *label, size_t n, size_t value)
{
    struct way way;
    if (!find_way(true, &way, table, store, label, n))
        return STRAP_ALREADY_HELD;
    if (table[1] == SLOTS)
        return STRAP_FULL;
    hang(table, store, &way, take_slot(table), label, n, value);
    return 0;
}

/* The same for a label as a field has it, where quotes may stand doubled. */
static unsigned insert_field(uint16_t *table, uint8_t *store, const struct field *label, size_t value)
{
    uint8_t gathered[WIDTH];
    size_t n = label->len - label->doubled;
    if (n == 0)
        return STRAP_EMPTY_LABEL;
    if (n > WIDTH)
        return STRAP_LONG_LABEL;
    if (label->doubled == 0)
        return insert(table, store, label->bytes, n, value);
    const uint8_t *byte = label->bytes;
    for (size_t i = 0; i < n; i++) {
        gathered[i] = *byte;
        byte += *byte == '"' ? 2 : 1;
    }
    return insert(table, store, gathered, n, value);
}

uint64_t plain_roster(uint16_t *table, size_t words, uint8_t *store, size_t bytes, const uint8_t *text, size_t n)
{
    struct rest rest = {text, text + n};
    struct field label;
    size_t value, taken;
    if (words != WORDS)
        return refusal(STRAP_WRONG_TABLE);
    if (bytes != BYTES)
        return refusal(STRAP_WRONG_STORE);
    if (n > STRAP_TEXT_BYTES)
        return refusal(STRAP_LONG_TEXT);
    for (taken = 0; rest.at != rest.end; taken++) {
        unsigned number =
            take_record(&rest, &label, &value) ? insert_field(table, store, &label, value) : STRAP_BROKEN_RECORD;
        if (number != 0)
            return pack(STRAP_REFUSED, 0, 0, number, taken + 1);
    }
    return pack(STRAP_TAKEN, 0, 0, taken, 0);
}
