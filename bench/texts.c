/* Labels and their values as the text of a roster. */
#include "contestants.h"
#include <stdio.h>

/* Whether a field holds only what RFC 4180 lets stand in one that is quoted. */
static bool can_stand(const uint8_t *field, size_t n)
{
    for (size_t i = 0; i < n; i++)
        if ((field[i] < ' ' || field[i] > '~') && field[i] != '\r' && field[i] != '\n')
            return false;
    return true;
}

static bool has_to_be_quoted(const uint8_t *field, size_t n)
{
    for (size_t i = 0; i < n; i++)
        if (memchr("\",\r\n", field[i], 4) != NULL)
            return true;
    return false;
}

/* Writes a field, between quotes where it is to stand so; gives how long it is there. */
static size_t write_field(uint8_t *text, const uint8_t *field, size_t n, bool quoted)
{
    size_t at = 0;
    if (quoted)
        text[at++] = '"';
    for (size_t i = 0; i < n; i++) {
        if (field[i] == '"')
            text[at++] = '"';
        text[at++] = field[i];
    }
    if (quoted)
        text[at++] = '"';
    return at;
}

static size_t write_record(uint8_t *text, const struct label *x, uint16_t value, enum quotes quotes)
{
    char digits[8];
    size_t n = (size_t)snprintf(digits, sizeof digits, "%u", value);
    bool either = quotes == DRAWN_QUOTES;
    size_t at = write_field(text, x->bytes, x->len, has_to_be_quoted(x->bytes, x->len) || (either && below(2) == 0));
    text[at++] = ',';
    at += write_field(text + at, (const uint8_t *)digits, n, either && below(2) == 0);
    text[at++] = '\r';
    text[at++] = '\n';
    return at;
}

size_t write_roster(const struct labels *l, enum quotes quotes, uint8_t *text)
{
    static uint8_t record[2 * WIDTH + 12]; /* each byte doubled, five digits, four quotes, comma, CR, LF */
    size_t n = 0;
    for (size_t i = 0; i < l->count; i++) {
        if (!can_stand(l->at[i].bytes, l->at[i].len))
            return 0;
        size_t m = write_record(record, l->at + i, value_at(i), quotes);
        if (n + m > STRAP_TEXT_BYTES)
            return 0;
        memcpy(text + n, record, m);
        n += m;
    }
    return n;
}
