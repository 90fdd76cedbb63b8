/* The workloads: labels held by every contestant, and labels sought. Nine are the benchmark's own, and two of these are
 * the page's too; in two more labels of letters are sought as spelled and in the other case; in two series more the
 * labels held grow from 1 to 512, and the bytes in common from 0 to 56. */
#ifndef WORKLOADS_H
#define WORKLOADS_H

#include "indexes.h"
#include "labels.h"

enum { NINE = 9, PAGES = 2, SPELLINGS = 2, HELD_STEPS = 10, COMMON_STEPS = 15 };
enum { NAMED = NINE + PAGES + SPELLINGS, WORKLOADS = NAMED + HELD_STEPS + COMMON_STEPS };

struct workload {
    const struct index *index;
    const char *series;     /* nine, page, spelling, held or common */
    char name[80];          /* in the series held and common, how many */
    const char *table_name; /* on the first of nine, or of the page's, that hold these labels: their name */
    struct labels labels, queries;
    uint16_t table[WORDS];
    uint8_t store[BYTES];
    uint8_t folded_store[BYTES]; /* the same store, every byte folded */
    struct entry entries[SLOTS];
    void *map, *btree;
};

/* The workload of this number, with its labels entered and its queries drawn. It stays until the next one is made. */
struct workload *make(int number);

/* Whether checks and updates are measured on it beside searches. */
bool has_updates(const struct workload *w);

/* The value of a workload's label. */
uint16_t value_at(size_t i);

/* Ends the program. */
void fail(const char *what);

#endif
