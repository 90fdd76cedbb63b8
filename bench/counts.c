/* Counts: visits, places and their limits; and under callgrind instructions, a dump for each number.
 *
 * A line is a workload's number or `run`, a figure's name and its value; a dump's name has the calls for its value. */
#include "contestants.h"
#include <stdio.h>
#include <valgrind/callgrind.h>

/* ---- visits and places */

/* How many leading bytes two labels share, capital and small letters one. A shared end is not counted. */
static unsigned shared_bytes(const struct label *a, const struct label *b)
{
    unsigned i = 0;
    while (i < a->len && i < b->len && number_of[a->bytes[i]] == number_of[b->bytes[i]])
        i++;
    return i;
}

/* The most leading bytes that a label shares with any one of a list; 0 where there is none. */
static unsigned most_shared(const struct labels *l, const struct label *x)
{
    unsigned most = 0;
    for (size_t i = 0; i < l->count; i++) {
        unsigned shared = shared_bytes(l->at + i, x);
        if (shared > most)
            most = shared;
    }
    return most;
}

/* Sums over a workload's searches; how many of them are at their limit, and how many find no label. */
struct sums {
    unsigned visits, places, before, whole, limit, by_length, at_limit, absent;
};

static void add_search(struct sums *sums, const struct workload *w, const struct label *x)
{
    const struct index *index = w->index;
    uint64_t said = index->search(w->table, index->words, w->store, index->bytes, x->bytes, x->len);
    uint64_t before = index->digital_before(w->table, index->words, w->store, index->bytes, x->bytes, x->len);
    uint64_t whole = index->whole_counts(w->table, w->folded_store, x->bytes, x->len);
    unsigned visits = strap_visits_of(said), places = strap_places_of(said);
    unsigned limit = visits + most_shared(&w->labels, x);
    if (places > limit)
        fail("a search examines more places than its limit");
    sums->visits += visits;
    sums->places += places;
    sums->before += strap_places_of(before);
    sums->whole += strap_places_of(whole);
    sums->limit += limit;
    sums->by_length += visits + (unsigned)x->len;
    sums->at_limit += places == limit;
    sums->absent += strap_kind_of(said) == STRAP_ABSENT;
}

/* A table whose labels are taken as a roster is of the series rosters too. */
static void print_names(int number, const struct workload *w)
{
    static uint8_t text[STRAP_TEXT_BYTES];
    printf("%d\tseries\t%s\n%d\tname\t%s\n", number, w->series, number, w->name);
    if (w->table_name == NULL)
        return;
    printf("%d\tseries\t%stables\n%d\ttable\t%s\n", number, w->index == &page ? "page " : "", number, w->table_name);
    size_t n = w->index->take_roster == NULL ? 0 : write_roster(&w->labels, NEEDED_QUOTES, text);
    if (n > 0)
        printf("%d\tseries\trosters\n%d\ttext\t%zu\n", number, number, n);
}

static void print_mean(int number, const char *what, unsigned sum)
{
    printf("%d\t%s\t%f\n", number, what, (double)sum / QUERIES);
}

/* A workload where no search finds a label is of the series absent too. */
static void print_sums(int number, const struct sums *sums)
{
    if (sums->absent == QUERIES)
        printf("%d\tseries\tabsent\n", number);
    print_mean(number, "visits", sums->visits);
    print_mean(number, "places, index", sums->places);
    print_mean(number, "places before", sums->before);
    printf("%d\tsaved\t%u\n", number, sums->before - sums->places);
    print_mean(number, "places, whole labels", sums->whole);
    print_mean(number, "places, limit", sums->limit);
    print_mean(number, "places, limit by length", sums->by_length);
    printf("%d\tat the limit\t%u\n", number, sums->at_limit);
}

void print_workloads(void)
{
    printf("run\tqueries\t%d\nrun\tupdates\t%d\n", QUERIES, UPDATES);
    for (int number = 0; number < WORKLOADS; number++) {
        const struct workload *w = make(number);
        struct sums sums = {0};
        for (size_t i = 0; i < QUERIES; i++)
            add_search(&sums, w, w->queries.at + i);
        print_names(number, w);
        print_sums(number, &sums);
    }
}

/* ---- instructions */

#define COUNTED(call)                                                                                                  \
    do {                                                                                                               \
        CALLGRIND_TOGGLE_COLLECT;                                                                                      \
        call;                                                                                                          \
        CALLGRIND_TOGGLE_COLLECT;                                                                                      \
    } while (0)

static void dump(int number, const char *what, int calls)
{
    char line[80];
    snprintf(line, sizeof line, "%d|%s|%d", number, what, calls);
    CALLGRIND_DUMP_STATS_AT(line);
}

static void count_searches(int number, const struct workload *w)
{
    for (int c = 0; c < CONTESTANTS; c++) {
        COUNTED(kept = kept + loop(c, w));
        dump(number, contestant[c].name, QUERIES);
    }
}

static void count_tests(int number, const struct workload *w)
{
    const struct index *index = w->index;
    COUNTED(kept = kept + index->check(w->table, index->words, w->store, index->bytes));
    dump(number, "check", 1);
    COUNTED(kept = kept + index->sound_check(w->table, index->words, w->store, index->bytes));
    dump(number, "C test", 1);
}

static void count_save(int number, const struct workload *w)
{
    static uint8_t output[STRAP_FILE_BYTES];
    const struct index *index = w->index;
    COUNTED(kept = kept + index->save(w->table, index->words, w->store, index->bytes, output, sizeof output));
    dump(number, "save", 1);
    COUNTED(kept = kept + index->plain_save(w->table, index->words, w->store, index->bytes, output, sizeof output));
    dump(number, "C save", 1);
}

/* The file of a workload's table is loaded, and its labels are inserted in file order into an empty table. */
static void count_load(int number, const struct workload *w)
{
    static uint16_t table[WORDS], slots[SLOTS];
    static uint8_t store[BYTES], file[STRAP_FILE_BYTES];
    const struct index *index = w->index;
    size_t n = strap_written_of(index->save(w->table, index->words, w->store, index->bytes, file, sizeof file));
    list_ascending(w, slots);
    COUNTED(kept = kept + index->load(table, index->words, store, index->bytes, file, n));
    dump(number, "load", 1);
    COUNTED(kept = kept + index->plain_load(table, index->words, store, index->bytes, file, n));
    dump(number, "C load", 1);
    COUNTED(insert_in_order(index, &w->labels, slots, table, store));
    dump(number, "inserts", 1);
}

/* The text of a workload's labels, where there is one, is taken into a table that is laid out; and a table is laid out,
 * and they are inserted into it in the same order. */
static void count_roster(int number, const struct workload *w)
{
    static uint16_t table[WORDS], slots[SLOTS];
    static uint8_t store[BYTES], text[STRAP_TEXT_BYTES];
    const struct index *index = w->index;
    size_t n = write_roster(&w->labels, NEEDED_QUOTES, text);
    if (n == 0)
        return;
    list_entered(&w->labels, slots);
    index->layout(table, index->words, store, index->bytes);
    COUNTED(kept = kept + index->take_roster(table, index->words, store, index->bytes, text, n));
    dump(number, "roster", 1);
    index->layout(table, index->words, store, index->bytes);
    COUNTED(kept = kept + index->plain_roster(table, index->words, store, index->bytes, text, n));
    dump(number, "C roster", 1);
    COUNTED(insert_in_order(index, &w->labels, slots, table, store));
    dump(number, "inserts as entered", 1);
}

/* What is counted of the updates: the calls of one kind, or a test of the memory that such a call finds. */
struct counted {
    const char *name;
    bool inserts;
    check_call *test;
};

static const struct counted *counted;

static void count_update(const struct update *u)
{
    bool now = u->inserts == counted->inserts;
    if (now && counted->test != NULL)
        COUNTED(kept = kept + counted->test(u->table, u->index->words, u->store, u->index->bytes));
    if (now && counted->test == NULL)
        COUNTED(update(u));
    else
        update(u);
}

static void count_updates(int number, const struct workload *w)
{
    const struct counted all[] = {
        {"delete", false, NULL},
        {"check before delete", false, w->index->check},
        {"C test before delete", false, w->index->sound_check},
        {"insert", true, NULL},
        {"check before insert", true, w->index->check},
        {"C test before insert", true, w->index->sound_check},
    };
    for (counted = all; counted < all + sizeof all / sizeof *all; counted++) {
        each_update(w, count_update);
        dump(number, counted->name, UPDATES);
    }
}

void count_instructions(void)
{
    for (int number = 0; number < WORKLOADS; number++) {
        const struct workload *w = make(number);
        CALLGRIND_START_INSTRUMENTATION;
        count_searches(number, w);
        if (has_updates(w)) {
            count_tests(number, w);
            if (w->index->save != NULL)
                count_save(number, w);
            if (w->index->load != NULL && w->table_name != NULL)
                count_load(number, w);
            if (w->index->take_roster != NULL && w->table_name != NULL)
                count_roster(number, w);
            count_updates(number, w);
        }
        CALLGRIND_STOP_INSTRUMENTATION;
    }
}
