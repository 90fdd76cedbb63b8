/* A sorted array of folded labels, searched by halves with memcmp. The label sought is folded once. */
#include "bench.h"
#include <stdlib.h>
#include <string.h>

static int order_of(const uint8_t *a, size_t m, const uint8_t *b, size_t n)
{
    int order = memcmp(a, b, m < n ? m : n);
    return order != 0 ? order : (m > n) - (m < n);
}

static int by_label(const void *a, const void *b)
{
    const struct entry *x = a, *y = b;
    return order_of(x->label, x->len, y->label, y->len);
}

void array_sort(struct entry *entries, size_t count)
{
    qsort(entries, count, sizeof *entries, by_label);
}

uint64_t array_search(const struct entry *entries, size_t count, const uint8_t *label, size_t n)
{
    uint8_t sought[WIDTH];
    if (n > WIDTH)
        return 0;
    fold(sought, label, n);
    size_t low = 0, high = count;
    while (low < high) {
        size_t middle = low + (high - low) / 2;
        const struct entry *e = entries + middle;
        int order = order_of(sought, n, e->label, e->len);
        if (order == 0)
            return (uint64_t)e->value + 1;
        if (order < 0)
            high = middle;
        else
            low = middle + 1;
    }
    return 0;
}

size_t array_smaller(const struct entry *entries, size_t count, const uint8_t *label, size_t n)
{
    uint8_t sought[WIDTH];
    fold(sought, label, n);
    size_t smaller = 0;
    while (smaller < count && order_of(entries[smaller].label, entries[smaller].len, sought, n) < 0)
        smaller++;
    return smaller;
}
