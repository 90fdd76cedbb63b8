/* The contestants of the benchmark, beside the proved index. A slice passes as its pointer and its length. */
#ifndef BENCH_H
#define BENCH_H

#include "strap_index.h"
#include <string.h>

/* The sizes are the hub's. Files built with PAGE too have the pairing page's then, and what they define the prefix. */
#ifdef PAGE
enum { SLOTS = STRAP_PAGE_SLOTS, WIDTH = STRAP_PAGE_WIDTH, DEPTH = 6 };
enum { WORDS = STRAP_PAGE_WORDS, BYTES = STRAP_PAGE_BYTES };
#define digital_search page_digital_search
#define digital_before page_digital_before
#define tuned_search page_tuned_search
#define sound_check page_sound_check
#define whole_search page_whole_search
#define whole_counts page_whole_counts
#else
enum { SLOTS = STRAP_SLOTS, WIDTH = STRAP_WIDTH, DEPTH = 12 };
enum { WORDS = STRAP_WORDS, BYTES = STRAP_BYTES };
#endif

/* A byte as labels are compared, its number: A to Z count as a to z, any other byte as itself. And all 256 numbers. */
#define NUMBER(byte) ((byte) + ('a' - 'A') * ((byte) >= 'A' && (byte) <= 'Z'))
#define NUMBERS_4(byte) NUMBER(byte), NUMBER((byte) + 1), NUMBER((byte) + 2), NUMBER((byte) + 3)
#define NUMBERS_16(byte) NUMBERS_4(byte), NUMBERS_4((byte) + 4), NUMBERS_4((byte) + 8), NUMBERS_4((byte) + 12)
#define NUMBERS_64(byte) NUMBERS_16(byte), NUMBERS_16((byte) + 16), NUMBERS_16((byte) + 32), NUMBERS_16((byte) + 48)

static const uint8_t number_of[256] = {NUMBERS_64(0), NUMBERS_64(64), NUMBERS_64(128), NUMBERS_64(192)};

/* Folds n bytes: by sixteens or eights, the last of them at the end, and fewer than eight one by one. */
typedef uint8_t sixteen __attribute__((vector_size(16)));
typedef uint8_t eight __attribute__((vector_size(8)));
#define FOLD(type, at)                                                                                                 \
    do {                                                                                                               \
        type x;                                                                                                        \
        memcpy(&x, from + (at), sizeof x);                                                                             \
        x += (type)(x - 'A' <= 'Z' - 'A') & ('a' - 'A');                                                               \
        memcpy(to + (at), &x, sizeof x);                                                                               \
    } while (0)

static inline void fold(uint8_t *__restrict to, const uint8_t *__restrict from, size_t n)
{
    if (n >= 16) {
        for (size_t i = 0; i < n - 16; i += 16)
            FOLD(sixteen, i);
        FOLD(sixteen, n - 16);
    } else if (n >= 8) {
        FOLD(eight, 0);
        FOLD(eight, n - 8);
    } else {
        for (size_t i = 0; i < n; i++)
            to[i] = number_of[from[i]];
    }
}

/* Whether the first of two labels is larger, or -1 where both spell one name. They agree before the place `at`, counted
 * from 0 and past the end of neither; it runs on to where they part. Equal bytes need no look at their numbers. */
static inline int is_larger(const uint8_t *a, size_t m, const uint8_t *b, size_t n, size_t *at)
{
    size_t end = m < n ? m : n;
    for (size_t i = *at;; i++) {
        while (i != end && a[i] == b[i])
            i++;
        if (i == end) {
            *at = i;
            return m == n ? -1 : m > n;
        }
        uint8_t x = number_of[a[i]], y = number_of[b[i]];
        if (x != y) {
            *at = i;
            return x > y;
        }
    }
}

/* An answer as the index packs it. */
static inline uint64_t pack(enum strap_kind kind, uint64_t places, uint64_t visits, uint64_t one, uint64_t other)
{
    return (uint64_t)kind | places << 4 | visits << 16 | one << 32 | other << 48;
}

static inline uint64_t refusal(unsigned number)
{
    return pack(STRAP_REFUSED, 0, 0, number, 0);
}

/* For the contestants that count nothing: the value plus 1, or 0 where the label is absent. */

#ifdef __cplusplus
extern "C" {
#endif

typedef uint64_t search_call(const uint16_t *table, size_t words, const uint8_t *store, size_t bytes,
                             const uint8_t *label, size_t n);
typedef uint64_t check_call(const uint16_t *table, size_t words, const uint8_t *store, size_t bytes);
typedef uint64_t save_call(const uint16_t *table, size_t words, const uint8_t *store, size_t bytes, uint8_t *output,
                           size_t room);
typedef uint64_t load_call(uint16_t *table, size_t words, uint8_t *store, size_t bytes, const uint8_t *file, size_t n);
typedef uint64_t roster_call(uint16_t *table, size_t words, uint8_t *store, size_t bytes, const uint8_t *text,
                             size_t n);
typedef uint64_t whole_call(const uint16_t *table, const uint8_t *store, const uint8_t *label, size_t n);

/* digital.c: the same search in plain C, over the same words and bytes; and by the steps before M-106 */
search_call digital_search, page_digital_search, digital_before, page_digital_before;

/* tuned.c: the same search in C tuned by hand */
search_call tuned_search, page_tuned_search;

/* sound.c: the soundness test in plain C */
check_call sound_check, page_sound_check;

/* saved.c: a save of a sound table in plain C */
save_call plain_save;

/* loaded.c: a load of a saved file in plain C, by the same updates */
load_call plain_load;

/* taken.c: a roster taken into a sound table in plain C, by the same updates */
roster_call plain_roster;

/* whole.c: the same tree, whole labels compared by memcmp, in a copy of the store with its bytes folded; and the places
 * and visits of that search */
whole_call whole_search, page_whole_search, whole_counts, page_whole_counts;

/* array.c: a sorted array of folded labels, searched by halves with memcmp; and how many of them are smaller than a
 * label, one after another */
struct entry {
    uint8_t label[WIDTH];
    uint16_t len;
    uint16_t value;
};
void array_sort(struct entry *entries, size_t count);
uint64_t array_search(const struct entry *entries, size_t count, const uint8_t *label, size_t n);
size_t array_smaller(const struct entry *entries, size_t count, const uint8_t *label, size_t n);

/* map.cpp: C++ std::map of folded labels */
void *map_new(void);
void map_insert(void *map, const uint8_t *label, size_t n, uint16_t value);
uint64_t map_search(const void *map, const uint8_t *label, size_t n);

/* btree.rs: Rust's BTreeMap of folded labels */
void *btree_new(void);
void btree_insert(void *map, const uint8_t *label, size_t n, uint16_t value);
uint64_t btree_search(const void *map, const uint8_t *label, size_t n);

/* nothing.c: a call that does nothing, whose cost is taken off all others */
uint64_t nothing(const uint8_t *label, size_t n);

#ifdef __cplusplus
}
#endif
#endif
