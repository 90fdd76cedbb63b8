/* Labels from a fixed generator: those held and those sought. */
#ifndef LABELS_H
#define LABELS_H

#include "bench.h"
#include <stdbool.h>

enum { QUERIES = 1024 };

struct labels {
    size_t count;
    struct label {
        uint8_t bytes[WIDTH];
        size_t len;
    } at[QUERIES];
};

/* Starts the generator anew. */
void seed(uint64_t number);

/* A random number below n. */
size_t below(size_t n);

/* Labels of `shared` bytes in common, then `least` to `most` random ones: any bytes, or letters of both cases. No two
 * spell one name. */
void random_labels(struct labels *l, size_t count, bool letters, size_t shared, size_t least, size_t most);

/* Names in alphabetical order, from the even or the odd given names. */
void roster(struct labels *l, size_t first);

/* Labels of a list. */
void held_queries(struct labels *q, const struct labels *l);

/* Labels of a list, the case of every letter exchanged. */
void respelled_queries(struct labels *q, const struct labels *l);

/* Labels of a list with the last byte changed, or one of the first four: none is in the list, in any spelling. */
void changed_queries(struct labels *q, const struct labels *l, bool last);

/* Labels of `least` to `most` random bytes, none in the list, in any spelling. */
void other_queries(struct labels *q, const struct labels *l, size_t least, size_t most);

#endif
