/* The workloads: which labels they hold, which they seek, and how every contestant comes to hold them. */
#include "workloads.h"
#include <stdio.h>
#include <stdlib.h>
#include <string.h>

/* Labels: their name, seed (0 for the roster) and number, the bytes in common, the random bytes after those, and
 * whether all are letters. */
struct group {
    const char *name;
    uint64_t seed;
    size_t count, shared, least, most;
    bool letters;
};

enum sought { HELD, EARLY, LATE, OTHERS, RESPELLED };

static const char *const sought_name[] = {"held", "absent, parting early", "absent, parting late", "absent",
                                          "sought in the other case"};

static const struct group alike = {"512 labels sharing 40 bytes", 20, 512, 40, 8, 24, false};
static const struct group brief = {"512 labels of 1 to 8 random bytes", 21, 512, 0, 1, 8, false};
static const struct group few = {"32 labels of 20 random bytes", 22, 32, 0, 20, 20, false};
static const struct group few_of_page = {"the page's 32 labels of 20 random bytes", 22, 32, 0, 20, 20, false};
static const struct group names = {"roster of 384 names entered in order", 0, 384, 0, 0, 0, false};
static const struct group letters = {"512 labels sharing 40 letters", 23, 512, 40, 8, 24, true};
static const struct group same_letters = {"the same", 23, 512, 40, 8, 24, true};

static const struct {
    const struct index *index;
    const struct group *group;
    enum sought sought;
} named[NAMED] = {
    {&hub, &alike, HELD},        {&hub, &alike, EARLY},        {&hub, &alike, LATE}, {&hub, &brief, HELD},
    {&hub, &brief, OTHERS},      {&hub, &few, HELD},           {&hub, &few, OTHERS}, {&hub, &names, HELD},
    {&hub, &names, OTHERS},      {&page, &few_of_page, HELD},  {&page, &few_of_page, OTHERS},
    {&hub, &letters, HELD},      {&hub, &same_letters, RESPELLED},
};

void fail(const char *what)
{
    fprintf(stderr, "bench: %s\n", what);
    exit(1);
}

uint16_t value_at(size_t i)
{
    return (uint16_t)(i * 40503u + 7u);
}

static void draw_labels(struct labels *l, const struct group *g)
{
    seed(g->seed);
    if (g == &names)
        roster(l, 0);
    else
        random_labels(l, g->count, g->letters, g->shared, g->least, g->most);
}

static void draw_queries(struct labels *q, const struct labels *l, const struct group *g, enum sought sought)
{
    static struct labels others;
    if (sought == HELD) {
        held_queries(q, l);
    } else if (sought == RESPELLED) {
        respelled_queries(q, l);
    } else if (sought != OTHERS) {
        changed_queries(q, l, sought == LATE);
    } else if (g == &names) {
        roster(&others, 1);
        held_queries(q, &others);
    } else {
        other_queries(q, l, g->least, g->most);
    }
}

/* Enters a workload's labels with every contestant. */
static void enter(struct workload *w)
{
    const struct index *x = w->index;
    if (x->layout(w->table, x->words, w->store, x->bytes) != pack(STRAP_DONE, 0, 0, 0, 0))
        fail("layout refused");
    w->map = map_new();
    w->btree = btree_new();
    for (size_t i = 0; i < w->labels.count; i++) {
        const uint8_t *label = w->labels.at[i].bytes;
        size_t n = w->labels.at[i].len;
        uint64_t said = x->insert(w->table, x->words, w->store, x->bytes, label, n, value_at(i));
        if (strap_kind_of(said) != STRAP_UPDATED || strap_slot_of(said) != i + 1)
            fail("insert refused");
        fold(w->entries[i].label, label, WIDTH);
        w->entries[i].len = (uint16_t)n;
        w->entries[i].value = value_at(i);
        map_insert(w->map, label, n, value_at(i));
        btree_insert(w->btree, label, n, value_at(i));
    }
    fold(w->folded_store, w->store, x->bytes);
    array_sort(w->entries, w->labels.count);
}

static struct workload *made(const struct index *index, const char *series, const struct group *g, enum sought sought,
                             uint64_t number)
{
    static struct workload w;
    w.index = index;
    w.series = series;
    w.table_name = NULL;
    draw_labels(&w.labels, g);
    enter(&w);
    seed(number);
    draw_queries(&w.queries, &w.labels, g, sought);
    return &w;
}

static struct workload *one_named(int number)
{
    const struct group *g = named[number].group;
    enum sought sought = named[number].sought;
    bool spelling = number >= NINE + PAGES;
    const char *series = number < NINE ? "nine" : spelling ? "spelling" : "page";
    /* What is respelled is what the workload before seeks. */
    uint64_t drawn = 50 + (uint64_t)number - (sought == RESPELLED);
    struct workload *w = made(named[number].index, series, g, sought, drawn);
    snprintf(w->name, sizeof w->name, "%s, %s", g->name, sought_name[sought]);
    if (sought == HELD && !spelling)
        w->table_name = g->name;
    return w;
}

/* So many of the first workload's labels, the same queries drawn from them. */
static struct workload *with_held(size_t many)
{
    struct group g = alike;
    g.count = many;
    return made(&hub, "held", &g, HELD, 50);
}

/* 512 labels of 8 bytes after so many in common. */
static struct workload *with_common(size_t many)
{
    struct group g = {NULL, 77, SLOTS, many, 8, 8, false};
    return made(&hub, "common", &g, HELD, 50);
}

struct workload *make(int number)
{
    if (number < NAMED)
        return one_named(number);
    bool held = number < NAMED + HELD_STEPS;
    size_t many = held ? (size_t)1 << (number - NAMED) : 4 * (size_t)(number - NAMED - HELD_STEPS);
    struct workload *w = held ? with_held(many) : with_common(many);
    snprintf(w->name, sizeof w->name, "%zu", many);
    return w;
}

bool has_updates(const struct workload *w)
{
    return w->table_name != NULL || strcmp(w->series, "held") == 0;
}
