/* Rosters taken on the hub's memory of tested.h, and tests of what is answered and left. */
#ifndef ROSTERS_H
#define ROSTERS_H

#include "tested.h"

/* A text written out: its bytes, and how many. */
#define TEXT(text) (const uint8_t *)(text), sizeof(text) - 1

static inline uint64_t take(const uint8_t *text, size_t n)
{
    return strap_take_roster(table, WORDS, store, BYTES, text, n);
}

/* A roster of so many records is taken, and leaves a sound table. */
static inline void takes(const char *what, const uint8_t *text, size_t n, unsigned records)
{
    uint64_t said = take(text, n);
    says(what, said, STRAP_TAKEN, records, 0);
    counts(what, said, 0, 0);
    if (strap_taken_of(said) != records) {
        fprintf(stderr, INDEX ": %s: %u records\n", what, strap_taken_of(said));
        failed = 1;
    }
    says(what, check(), STRAP_DONE, 0, 0);
}

/* What take_roster answered is a refusal of this record by this number. */
static inline void stopped(const char *what, uint64_t said, unsigned record, enum strap_refusal number)
{
    says(what, said, STRAP_REFUSED, number, record);
    counts(what, said, 0, 0);
    if (strap_record_of(said) != record || strap_refusal_of(said) != number) {
        fprintf(stderr, INDEX ": %s: %u at record %u\n", what, strap_refusal_of(said), strap_record_of(said));
        failed = 1;
    }
}

/* A roster is refused at this record, and leaves the memory that was kept. */
static inline void stops(const char *what, const uint8_t *text, size_t n, unsigned record, enum strap_refusal number)
{
    stopped(what, take(text, n), record, number);
    as_kept(what);
}

/* The first record of a text is refused: nothing goes in, and after another record that one alone. */
static inline void first_stops(const char *what, const uint8_t *text, size_t n, enum strap_refusal number)
{
    static const char one_more[] = "e,50\r\n";
    static uint8_t longer[STRAP_TEXT_BYTES];
    memcpy(longer, one_more, strlen(one_more));
    memcpy(longer + strlen(one_more), text, n);
    roster();
    keep();
    stops(what, text, n, 1, number);
    insert("e", 50);
    keep();
    roster();
    stops(what, longer, strlen(one_more) + n, 2, number);
}

static inline void broken_record(const char *what, const uint8_t *text, size_t n)
{
    first_stops(what, text, n, STRAP_BROKEN_RECORD);
}

/* A front, a byte so many times, and a back; how long that is. */
static inline size_t repeated(uint8_t *text, const char *front, char byte, size_t times, const char *back)
{
    size_t n = strlen(front);
    memcpy(text, front, n);
    memset(text + n, byte, times);
    memcpy(text + n + times, back, strlen(back));
    return n + times + strlen(back);
}

#endif
