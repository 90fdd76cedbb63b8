/* Memory of one index, the calls on it, and tests of what they answer: of the hub's index, and with PAGE of the pairing
 * page's. Each file that includes this has memory of its own, and `failed` of its own: 1 once an answer is not as it
 * should be. */
#ifndef TESTED_H
#define TESTED_H

#include "strap_index.h"
#include <stdio.h>
#include <string.h>

#ifdef PAGE
#define STRAP(call) strap_page_##call
#define INDEX "page"
enum { SLOTS = STRAP_PAGE_SLOTS, WIDTH = STRAP_PAGE_WIDTH, WORDS = STRAP_PAGE_WORDS, BYTES = STRAP_PAGE_BYTES };
enum { OTHER_WORDS = STRAP_WORDS, OTHER_BYTES = STRAP_BYTES };
#else
#define STRAP(call) strap_##call
#define INDEX "hub"
enum { SLOTS = STRAP_SLOTS, WIDTH = STRAP_WIDTH, WORDS = STRAP_WORDS, BYTES = STRAP_BYTES };
enum { OTHER_WORDS = STRAP_PAGE_WORDS, OTHER_BYTES = STRAP_PAGE_BYTES };
#endif

static uint16_t table[WORDS], list[SLOTS];
static uint8_t store[BYTES];
static int failed;

/* An answer is of the kind, and has these two numbers. */
static inline void says(const char *what, uint64_t answer, enum strap_kind kind, unsigned one, unsigned other)
{
    if (strap_kind_of(answer) != kind || strap_one_of(answer) != one || strap_other_of(answer) != other) {
        fprintf(stderr, INDEX ": %s: kind %u, %u and %u\n", what, strap_kind_of(answer), strap_one_of(answer),
                strap_other_of(answer));
        failed = 1;
    }
}

/* It has these counts. */
static inline void counts(const char *what, uint64_t answer, unsigned visits, unsigned places)
{
    if (strap_visits_of(answer) != visits || strap_places_of(answer) != places) {
        fprintf(stderr, INDEX ": %s: %u visits, %u places\n", what, strap_visits_of(answer), strap_places_of(answer));
        failed = 1;
    }
}

static inline uint64_t layout(void) { return STRAP(layout)(table, WORDS, store, BYTES); }
static inline uint64_t check(void) { return STRAP(check)(table, WORDS, store, BYTES); }
static inline uint64_t listing(size_t room) { return STRAP(listing)(table, WORDS, store, BYTES, list, room); }
static inline uint64_t view(size_t slot) { return STRAP(view)(table, WORDS, store, BYTES, slot); }

static inline uint64_t search(const char *label)
{
    return STRAP(search)(table, WORDS, store, BYTES, (const uint8_t *)label, strlen(label));
}

static inline uint64_t insert(const char *label, uint16_t value)
{
    return STRAP(insert)(table, WORDS, store, BYTES, (const uint8_t *)label, strlen(label), value);
}

static inline uint64_t delete(const char *label)
{
    return STRAP(delete)(table, WORDS, store, BYTES, (const uint8_t *)label, strlen(label));
}

/* The label is absent, and these slots are next to it. */
static inline uint64_t lies_between(const char *label, unsigned below, unsigned above)
{
    uint64_t said = search(label);
    if (strap_kind_of(said) != STRAP_ABSENT || strap_below_of(said) != below || strap_above_of(said) != above) {
        fprintf(stderr, INDEX ": search %s: kind %u, between %u and %u\n", label, strap_kind_of(said),
                strap_below_of(said), strap_above_of(said));
        failed = 1;
    }
    return said;
}

/* The slot's label is viewed, and is spelled so. */
static inline void shows(const char *what, size_t slot, const char *label)
{
    uint64_t said = view(slot);
    says(what, said, STRAP_VIEWED, (unsigned)(WIDTH * (slot - 1)), (unsigned)strlen(label));
    if (memcmp(store + WIDTH * (slot - 1), label, strlen(label)) != 0)
        says(what, 0, STRAP_VIEWED, (unsigned)(WIDTH * (slot - 1)), (unsigned)strlen(label));
}

/* The roster of document 01, "b", "a", "dd" and "c", on a fresh table. */
static inline void roster(void)
{
    layout();
    insert("b", 10);
    insert("a", 20);
    insert("dd", 30);
    insert("c", 40);
}

/* The charges in the slots of "b", "a", "dd" and "c", 1 to 4. */
static inline void charges_are(const char *what, unsigned b, unsigned a, unsigned dd, unsigned c)
{
    const unsigned charges[] = {b, a, dd, c};
    for (size_t slot = 1; slot <= 4; slot++)
        if (strap_charge_in(table, slot) != charges[slot - 1]) {
            fprintf(stderr, INDEX ": %s: charge %u in slot %zu\n", what, strap_charge_in(table, slot), slot);
            failed = 1;
        }
}

/* Three digits in ascending order: the label of slot i + 1 in a full table. */
static inline void spell(char *label, unsigned i)
{
    label[0] = (char)('0' + i / 64);
    label[1] = (char)('0' + i / 8 % 8);
    label[2] = (char)('0' + i % 8);
}

#ifndef PAGE
static inline uint64_t set_charge(const char *label, uint16_t charge)
{
    return strap_set_charge(table, WORDS, store, BYTES, (const uint8_t *)label, strlen(label), charge);
}

/* Fills bytes that a call must leave as they are. */
enum { HELD_BEFORE = 170 };

static uint16_t table_before[WORDS];
static uint8_t store_before[BYTES];

static inline void keep(void)
{
    memcpy(table_before, table, sizeof table);
    memcpy(store_before, store, sizeof store);
}

/* Table and store are those that were kept. */
static inline void as_kept(const char *what)
{
    if (memcmp(table_before, table, sizeof table) != 0 || memcmp(store_before, store, sizeof store) != 0) {
        fprintf(stderr, INDEX ": %s: another table or store\n", what);
        failed = 1;
    }
}

/* Table and store hold anything, two different things in turn. */
static inline void spoil(void)
{
    static unsigned turn;
    turn++;
    for (size_t i = 0; i < WORDS; i++)
        table[i] = (uint16_t)(turn % 2 == 0 ? 65535 : i * 40503u + turn);
    for (size_t i = 0; i < BYTES; i++)
        store[i] = (uint8_t)(turn % 2 == 0 ? 255 : i * 7 + turn);
}
#endif

#endif
