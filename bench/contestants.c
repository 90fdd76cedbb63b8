/* The contestants' loops, one call for each label sought. */
#include "contestants.h"

volatile uint64_t kept;

#define LOOP(name, call)                                                                                               \
    static __attribute__((noinline)) uint64_t name(const struct workload *w)                                           \
    {                                                                                                                  \
        uint64_t sum = 0;                                                                                              \
        for (size_t i = 0; i < QUERIES; i++) {                                                                         \
            const uint8_t *x = w->queries.at[i].bytes;                                                                 \
            size_t n = w->queries.at[i].len;                                                                           \
            sum += call;                                                                                               \
        }                                                                                                              \
        return sum;                                                                                                    \
    }

LOOP(loop_nothing, nothing(x, n))
LOOP(loop_index, strap_search(w->table, STRAP_WORDS, w->store, STRAP_BYTES, x, n))
LOOP(loop_index_of_page, strap_page_search(w->table, STRAP_PAGE_WORDS, w->store, STRAP_PAGE_BYTES, x, n))
LOOP(loop_digital, digital_search(w->table, STRAP_WORDS, w->store, STRAP_BYTES, x, n))
LOOP(loop_digital_of_page, page_digital_search(w->table, STRAP_PAGE_WORDS, w->store, STRAP_PAGE_BYTES, x, n))
LOOP(loop_tuned, tuned_search(w->table, STRAP_WORDS, w->store, STRAP_BYTES, x, n))
LOOP(loop_tuned_of_page, page_tuned_search(w->table, STRAP_PAGE_WORDS, w->store, STRAP_PAGE_BYTES, x, n))
LOOP(loop_whole, whole_search(w->table, w->folded_store, x, n))
LOOP(loop_whole_of_page, page_whole_search(w->table, w->folded_store, x, n))
LOOP(loop_array, array_search(w->entries, w->labels.count, x, n))
LOOP(loop_map, map_search(w->map, x, n))
LOOP(loop_btree, btree_search(w->btree, x, n))

const struct contestant contestant[CONTESTANTS] = {
    {"nothing", loop_nothing, loop_nothing},
    {"index", loop_index, loop_index_of_page},
    {"C, same method", loop_digital, loop_digital_of_page},
    {"C, tuned", loop_tuned, loop_tuned_of_page},
    {"AVL, whole labels", loop_whole, loop_whole_of_page},
    {"sorted array", loop_array, loop_array},
    {"std::map", loop_map, loop_map},
    {"BTreeMap", loop_btree, loop_btree},
};

uint64_t loop(int number, const struct workload *w)
{
    const struct contestant *c = contestant + number;
    return w->index == &page ? c->page_loop(w) : c->hub_loop(w);
}
