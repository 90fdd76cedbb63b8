/* Labels of a workload taken out and put back, one after another; and all of them put into an empty table. */
#include "contestants.h"
#include <string.h>

void update(const struct update *u)
{
    const struct index *index = u->index;
    uint64_t said =
        u->inserts ? index->insert(u->table, index->words, u->store, index->bytes, u->label, u->n, u->value)
                   : index->delete(u->table, index->words, u->store, index->bytes, u->label, u->n);
    if (strap_kind_of(said) != STRAP_UPDATED)
        fail("an update was refused");
}

void each_update(const struct workload *w, void (*make)(const struct update *))
{
    static uint16_t table[WORDS];
    static uint8_t store[BYTES];
    memcpy(table, w->table, sizeof table);
    memcpy(store, w->store, sizeof store);
    for (size_t k = 0; k < UPDATES; k++) {
        size_t i = k * 37 % w->labels.count;
        struct update u = {false, w->labels.at[i].bytes, w->labels.at[i].len, value_at(i), w->index, table, store};
        make(&u);
        u.inserts = true;
        make(&u);
    }
}

void list_ascending(const struct workload *w, uint16_t *slots)
{
    const struct index *index = w->index;
    uint64_t said = index->listing(w->table, index->words, w->store, index->bytes, slots, index->slots);
    if (said != pack(STRAP_LISTED, 0, 0, w->labels.count, 0))
        fail("a listing was refused");
}

void list_entered(const struct labels *l, uint16_t *slots)
{
    for (size_t i = 0; i < l->count; i++)
        slots[i] = (uint16_t)(i + 1);
}

void insert_in_order(const struct index *index, const struct labels *l, const uint16_t *slots, uint16_t *table,
                     uint8_t *store)
{
    if (index->layout(table, index->words, store, index->bytes) != pack(STRAP_DONE, 0, 0, 0, 0))
        fail("layout refused");
    for (size_t i = 0; i < l->count; i++) {
        size_t k = slots[i] - 1u;
        update(&(struct update){true, l->at[k].bytes, l->at[k].len, value_at(k), index, table, store});
    }
}
