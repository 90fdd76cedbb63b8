/* Compares the contestants' answers on every workload, before anything is measured. */
#include "contestants.h"

enum { CHANGED_BITS = 4000, CHANGED_FILES = 200, CHANGED_TEXTS = 200, DRAWN_TEXTS = 4000, TAKEN_OUT = 100 };

/* The same answer but for the places, of which the second has as many or more. */
static bool same_but_places(uint64_t said, uint64_t before)
{
    uint64_t more = (uint64_t)strap_places_of(before) - strap_places_of(said);
    return strap_places_of(before) >= strap_places_of(said) && before == said + (more << 4);
}

/* The slot shows the label at this place of the sorted array, from 1, or is 0 where there is none. */
static bool shows(const struct workload *w, unsigned slot, size_t place)
{
    const struct index *index = w->index;
    if (place == 0 || place > w->labels.count)
        return slot == 0;
    const struct entry *e = w->entries + place - 1;
    uint64_t said = index->view(w->table, index->words, w->store, index->bytes, slot);
    return strap_kind_of(said) == STRAP_VIEWED && strap_length_of(said) == e->len &&
           memcmp(w->folded_store + strap_start_of(said), e->label, e->len) == 0;
}

/* The slots beside an absent label show the labels that stand next to it in the sorted array. */
static void compare_neighbours(const struct workload *w, uint64_t said, const uint8_t *x, size_t n)
{
    size_t smaller = array_smaller(w->entries, w->labels.count, x, n);
    if (!shows(w, strap_below_of(said), smaller) || !shows(w, strap_above_of(said), smaller + 1))
        fail("the neighbours are not those in the sorted array");
}

static void compare_search(const struct workload *w, const uint8_t *x, size_t n)
{
    const struct index *index = w->index;
    uint64_t said = index->search(w->table, index->words, w->store, index->bytes, x, n);
    uint64_t value = strap_kind_of(said) == STRAP_FOUND ? (uint64_t)strap_value_of(said) + 1 : 0;
    uint64_t whole = index->whole_counts(w->table, w->folded_store, x, n);
    if (strap_kind_of(said) == STRAP_REFUSED)
        fail("a search was refused");
    if (said != index->digital_search(w->table, index->words, w->store, index->bytes, x, n))
        fail("the C of the same method answers otherwise");
    if (said != index->tuned_search(w->table, index->words, w->store, index->bytes, x, n))
        fail("the tuned C answers otherwise");
    if (!same_but_places(said, index->digital_before(w->table, index->words, w->store, index->bytes, x, n)))
        fail("the steps before M-106 answer otherwise");
    if (strap_kind_of(whole) != strap_kind_of(said) || strap_visits_of(whole) != strap_visits_of(said) ||
        strap_places_of(whole) < strap_places_of(said))
        fail("the search with whole labels goes another way");
    if (value != index->whole_search(w->table, w->folded_store, x, n) ||
        value != array_search(w->entries, w->labels.count, x, n) || value != map_search(w->map, x, n) ||
        value != btree_search(w->btree, x, n))
        fail("the contestants' answers differ");
    if (strap_kind_of(said) == STRAP_ABSENT)
        compare_neighbours(w, said, x, n);
}

/* ---- memory with a bit changed */

struct bit {
    bool in_table;
    size_t at;
    unsigned mask;
};

static struct bit any_bit(const struct workload *w)
{
    bool in_table = below(2) == 0, anywhere = below(4) == 0;
    size_t slots = anywhere ? w->index->slots : w->labels.count;
    size_t at = below(in_table ? 4 + 8 * slots : w->index->width * slots);
    return (struct bit){in_table, at, 1u << below(in_table ? 16 : 8)};
}

static void flip(struct workload *w, struct bit b)
{
    if (b.in_table)
        w->table[b.at] ^= (uint16_t)b.mask;
    else
        w->store[b.at] ^= (uint8_t)b.mask;
}

/* The two soundness tests, and the three searches. */
static void compare_changed(struct workload *w, const uint8_t *x, size_t n)
{
    const struct index *index = w->index;
    size_t words = index->words, bytes = index->bytes;
    struct bit b = any_bit(w);
    flip(w, b);
    if (index->check(w->table, words, w->store, bytes) != index->sound_check(w->table, words, w->store, bytes))
        fail("the soundness tests differ");
    uint64_t said = index->search(w->table, words, w->store, bytes, x, n);
    if (said != index->digital_search(w->table, words, w->store, bytes, x, n) ||
        said != index->tuned_search(w->table, words, w->store, bytes, x, n))
        fail("the searches differ on broken memory");
    flip(w, b);
}

/* ---- updates */

static void see_sound(const struct index *index, const uint16_t *table, const uint8_t *store)
{
    uint64_t done = pack(STRAP_DONE, 0, 0, 0, 0);
    if (index->check(table, index->words, store, index->bytes) != done ||
        index->sound_check(table, index->words, store, index->bytes) != done)
        fail("a table is not sound");
}

static void compare_update(const struct update *u)
{
    static uint8_t folded_store[BYTES];
    update(u);
    see_sound(u->index, u->table, u->store);
    fold(folded_store, u->store, u->index->bytes);
    if (u->index->whole_search(u->table, folded_store, u->label, u->n) != (u->inserts ? (uint64_t)u->value + 1 : 0))
        fail("an update left another answer");
}

/* ---- saves */

/* The file of the plain C, into an output of its length and one byte more; and no byte changed where one is missing. */
static void compare_save(const struct workload *w)
{
    static uint8_t output[STRAP_FILE_BYTES + 1], plain[STRAP_FILE_BYTES + 1], before[STRAP_FILE_BYTES + 1];
    const struct index *index = w->index;
    size_t words = index->words, bytes = index->bytes;
    memset(before, 170, sizeof before);
    memset(plain, 170, sizeof plain);
    uint64_t said = index->plain_save(w->table, words, w->store, bytes, plain, sizeof plain);
    size_t written = strap_written_of(said);
    memcpy(output, before, sizeof output);
    if (index->save(w->table, words, w->store, bytes, output, written - 1) != refusal(STRAP_SHORT_OUTPUT) ||
        memcmp(output, before, sizeof output) != 0)
        fail("an output that is too short is taken, or written");
    if (index->save(w->table, words, w->store, bytes, output, written) != said ||
        memcmp(output, plain, sizeof output) != 0)
        fail("the save of the plain C writes another file");
    if (index->save(w->table, words, w->store, bytes, output, sizeof output) != said ||
        memcmp(output, plain, sizeof output) != 0)
        fail("a save into a longer output writes another file");
}

/* ---- loads */

struct lent {
    uint16_t table[WORDS];
    uint8_t store[BYTES];
};

/* The file loaded by the index, into memory that holds anything, and by the plain C: they answer the same and leave the
 * same, where they refuse what was there, else what is saved again as the same file. */
static uint64_t load_both(const struct index *index, struct lent *loaded, const uint8_t *file, size_t n)
{
    static struct lent before, plain;
    static uint8_t output[STRAP_FILE_BYTES];
    for (size_t i = 0; i < sizeof before; i++)
        ((uint8_t *)&before)[i] = (uint8_t)(i * 7 + n);
    *loaded = plain = before;
    uint64_t said = index->load(loaded->table, WORDS, loaded->store, BYTES, file, n);
    if (said != index->plain_load(plain.table, WORDS, plain.store, BYTES, file, n))
        fail("the load of the plain C answers otherwise");
    if (memcmp(loaded, &plain, sizeof plain) != 0)
        fail("the load of the plain C leaves another table or store");
    if (strap_kind_of(said) == STRAP_REFUSED && memcmp(loaded, &before, sizeof before) != 0)
        fail("a load that was refused changed table or store");
    if (strap_kind_of(said) == STRAP_LOADED &&
        (index->save(loaded->table, WORDS, loaded->store, BYTES, output, n) != pack(STRAP_SAVED, 0, 0, n, 0) ||
         memcmp(output, file, n) != 0))
        fail("what was loaded is saved as another file");
    return said;
}

/* Where the label that is saved at this place of a file ends with its value. */
static size_t after_saved(const uint8_t *file, size_t at)
{
    at += 1 + (size_t)file[at];
    while (file[at] >= 128)
        at++;
    return at + 1;
}

/* A label of the file, drawn at random, exchanged with the one after it. */
static void exchange_saved(const struct workload *w, uint8_t *file)
{
    static uint8_t held[2 * (WIDTH + 4)];
    size_t at = w->labels.count < 128 ? 1 : 2;
    for (size_t left = below(w->labels.count - 1); left > 0; left--)
        at = after_saved(file, at);
    size_t next = after_saved(file, at), end = after_saved(file, next);
    memcpy(held, file + at, end - at);
    memcpy(file + at, held + (next - at), end - next);
    memcpy(file + at + (end - next), held, next - at);
}

/* The workload's file, cut short, with a byte more, with two labels exchanged, and with a bit changed. */
static void compare_changed_files(const struct workload *w, uint8_t *file, size_t n)
{
    static uint8_t changed[STRAP_FILE_BYTES];
    static struct lent loaded;
    for (size_t k = 0; k < CHANGED_FILES; k++) {
        size_t cut = k < 2 ? k * (n - 1) : below(n);
        if (load_both(w->index, &loaded, file, cut) != refusal(STRAP_BROKEN_FILE))
            fail("a file cut short is loaded");
        memcpy(changed, file, n);
        changed[below(n)] ^= (uint8_t)(1u << below(8));
        load_both(w->index, &loaded, changed, n);
        if (w->labels.count == 1)
            continue;
        memcpy(changed, file, n);
        exchange_saved(w, changed);
        if (load_both(w->index, &loaded, changed, n) != refusal(STRAP_NOT_ASCENDING))
            fail("labels that do not ascend are loaded");
    }
    for (unsigned byte = 0; byte < 256; byte++) {
        file[n] = (uint8_t)byte;
        if (load_both(w->index, &loaded, file, n + 1) != refusal(STRAP_BYTES_AFTER))
            fail("a byte after the last label is taken");
    }
}

/* The workload's file gives what inserting its labels in file order gives. */
static void compare_load(const struct workload *w)
{
    static uint8_t file[STRAP_FILE_BYTES + 1];
    static uint16_t slots[SLOTS];
    static struct lent loaded, entered;
    const struct index *index = w->index;
    size_t n = strap_written_of(index->save(w->table, WORDS, w->store, BYTES, file, sizeof file));
    if (load_both(index, &loaded, file, n) != pack(STRAP_LOADED, 0, 0, w->labels.count, 0))
        fail("a saved file is not loaded");
    list_ascending(w, slots);
    insert_in_order(index, &w->labels, slots, entered.table, entered.store);
    if (memcmp(&loaded, &entered, sizeof entered) != 0)
        fail("a load leaves another table or store than inserts in file order");
    compare_changed_files(w, file, n);
}

/* ---- rosters */

/* A text taken by the index and by the plain C, each into the same memory: they answer the same and leave the same,
 * which is sound. */
static uint64_t take_both(const struct index *index, struct lent *lent, const uint8_t *text, size_t n)
{
    static struct lent plain;
    plain = *lent;
    uint64_t said = index->take_roster(lent->table, WORDS, lent->store, BYTES, text, n);
    if (said != index->plain_roster(plain.table, WORDS, plain.store, BYTES, text, n))
        fail("the roster of the plain C answers otherwise");
    if (memcmp(lent, &plain, sizeof plain) != 0)
        fail("the roster of the plain C leaves another table or store");
    see_sound(index, lent->table, lent->store);
    return said;
}

/* The same into an empty table. */
static uint64_t take_anew(const struct index *index, struct lent *lent, const uint8_t *text, size_t n)
{
    index->layout(lent->table, WORDS, lent->store, BYTES);
    return take_both(index, lent, text, n);
}

/* What inserting labels in their order leaves. */
static const struct lent *entered(const struct index *index, const struct labels *l)
{
    static uint16_t slots[SLOTS];
    static struct lent lent;
    list_entered(l, slots);
    insert_in_order(index, l, slots, lent.table, lent.store);
    return &lent;
}

/* A byte that means something in a text, or any. */
static uint8_t drawn_byte(void)
{
    static const uint8_t telling[] = "\",\r\n0123456789Aa !#+-~\t\177\200";
    return below(2) == 0 ? telling[below(sizeof telling)] : (uint8_t)below(256);
}

/* The labels' text with a byte changed. Where a record is refused and those before it are as they were, they stay in,
 * and nothing else does. */
static void compare_changed_text(const struct index *index, const struct labels *l)
{
    static uint8_t text[STRAP_TEXT_BYTES];
    static struct labels before;
    static struct lent taken, alone;
    size_t n = write_roster(l, NEEDED_QUOTES, text), at = below(n);
    text[at] = drawn_byte();
    uint64_t said = take_anew(index, &taken, text, n);
    if (strap_kind_of(said) != STRAP_REFUSED)
        return;
    before = *l;
    before.count = strap_record_of(said) - 1;
    n = write_roster(&before, NEEDED_QUOTES, text);
    if (n > at)
        return;
    if (take_anew(index, &alone, text, n) != pack(STRAP_TAKEN, 0, 0, before.count, 0) ||
        memcmp(&taken, &alone, sizeof alone) != 0)
        fail("a refused roster leaves something else than the records before the refused one");
}

/* The labels' text with quotes drawn: whole it is taken, and then once more with a byte changed. */
static void compare_quoted_text(const struct index *index, const struct labels *l)
{
    static uint8_t text[STRAP_TEXT_BYTES];
    static struct lent taken;
    size_t n = write_roster(l, DRAWN_QUOTES, text);
    if (take_anew(index, &taken, text, n) != pack(STRAP_TAKEN, 0, 0, l->count, 0))
        fail("a roster with quotes is not taken");
    if (memcmp(&taken, entered(index, l), sizeof taken) != 0)
        fail("a roster with quotes leaves another table or store than inserts in its order");
    text[below(n)] = drawn_byte();
    take_anew(index, &taken, text, n);
}

/* Labels in which quotes, commas, CR and LF stand: where no two are one by that, their text is taken. */
static void compare_quoted_labels(const struct index *index, const struct labels *l)
{
    static uint8_t text[STRAP_TEXT_BYTES];
    static struct labels changed;
    static struct lent taken;
    changed = *l;
    for (size_t i = 0; i < l->count; i++)
        if (below(2) == 0)
            changed.at[i].bytes[below(l->at[i].len)] = (uint8_t)"\"\",\r\n"[below(5)];
    uint64_t said = take_anew(index, &taken, text, write_roster(&changed, DRAWN_QUOTES, text));
    if (said == pack(STRAP_TAKEN, 0, 0, l->count, 0) && memcmp(&taken, entered(index, &changed), sizeof taken) != 0)
        fail("a roster of quoted labels leaves another table or store than inserts in its order");
    if (said != pack(STRAP_TAKEN, 0, 0, l->count, 0) && strap_refusal_of(said) != STRAP_ALREADY_HELD)
        fail("a roster of quoted labels is not taken");
}

/* Puts one of these parts, drawn at random, at the end of a text. */
#define APPEND(text, n, ...)                                                                                           \
    do {                                                                                                               \
        static const char *const parts[] = {__VA_ARGS__};                                                              \
        const char *part = parts[below(sizeof parts / sizeof *parts)];                                                 \
        memcpy((text) + *(n), part, strlen(part));                                                                     \
        *(n) += strlen(part);                                                                                          \
    } while (0)

/* Label, comma, value and end of a record: one in eight of each is not right. Some labels are empty, and some have 64
 * bytes or 65. */
#define X8 "xxxxxxxx"
#define X62 X8 X8 X8 X8 X8 X8 X8 "xxxxxx"

static void draw_record(uint8_t *text, size_t *n)
{
    if (below(8) > 0)
        APPEND(text, n, "a", "b", "C", "\"c\"", "\"d\"", "\"e\"\"\"", "\"\"\"\"", "\"f,\r\n\"", "A ", " !", "~",
               "\"\"", "", X62 "yz", X62 "abc", "\"" X62 "\"\"\"\"\"", "\"" X62 "\"\"\"\"\"\"\"");
    else
        APPEND(text, n, "\"h", "h\"", "\"h\"\"", "h\"\"i", "\"h\" ", " \"h\"", "\"h\"i", "h\ri", "\177",
               "\"\t\"", "\200");
    if (below(8) > 0)
        APPEND(text, n, ",");
    else
        APPEND(text, n, "", ",,", ";", "\r\n");
    if (below(8) > 0)
        APPEND(text, n, "0", "1", "10", "65535", "\"7\"", "\"65530\"");
    else
        APPEND(text, n, "65536", "\"65536\"", "99999", "100000", "00", "07", "", "\"\"", "-1", " 1", "1 ", "\"1", "1\"",
               "\"1\" ", "\"1\"2", "\"1\"\"\"", "1,2", "1,", "x");
    if (below(8) > 0)
        APPEND(text, n, "\r\n");
    else
        APPEND(text, n, "\r", "\n", "\n\r", "\r\r\n", "\r\n\r\n", "");
}

/* Short texts, whose records are put together from parts that are right and parts that are not. */
static void compare_drawn_text(const struct index *index)
{
    static struct lent taken;
    uint8_t text[500];
    size_t n = 0;
    for (size_t left = 1 + below(4); left > 0; left--)
        draw_record(text, &n);
    take_anew(index, &taken, text, n - (n > 0 && below(4) == 0));
}

/* Some labels taken out, and put back as a roster, into the slots that were freed. */
static void compare_taken_out(const struct workload *w)
{
    static uint8_t text[STRAP_TEXT_BYTES];
    static struct labels out;
    static struct lent taken, put;
    const struct index *index = w->index;
    memcpy(taken.table, w->table, sizeof taken.table);
    memcpy(taken.store, w->store, sizeof taken.store);
    for (out.count = 0; out.count < TAKEN_OUT; out.count++) {
        size_t i = (out.count * 37 + 5) % w->labels.count;
        out.at[out.count] = w->labels.at[i];
        update(&(struct update){false, w->labels.at[i].bytes, w->labels.at[i].len, 0, index, taken.table, taken.store});
    }
    put = taken;
    if (take_both(index, &taken, text, write_roster(&out, NEEDED_QUOTES, text)) !=
        pack(STRAP_TAKEN, 0, 0, out.count, 0))
        fail("a roster into freed slots is not taken");
    for (size_t i = 0; i < out.count; i++)
        update(&(struct update){true, out.at[i].bytes, out.at[i].len, value_at(i), index, put.table, put.store});
    if (memcmp(&taken, &put, sizeof put) != 0)
        fail("a roster into freed slots leaves another table or store than inserts in its order");
}

/* A record more than there are slots is refused by 9; then each label is held. */
static void compare_full(const struct index *index)
{
    static uint8_t text[STRAP_TEXT_BYTES];
    static struct labels many;
    static struct lent taken;
    random_labels(&many, SLOTS + 1, true, 0, 2, 8);
    size_t n = write_roster(&many, DRAWN_QUOTES, text);
    if (take_anew(index, &taken, text, n) != pack(STRAP_REFUSED, 0, 0, STRAP_FULL, SLOTS + 1))
        fail("a roster of a label more than all is not refused by 9");
    if (take_both(index, &taken, text, n) != pack(STRAP_REFUSED, 0, 0, STRAP_ALREADY_HELD, 1))
        fail("a roster of labels held is not refused by 7");
}

/* The text of a workload's labels, where there is one, gives what inserting them in the same order gives. */
static void compare_roster(const struct workload *w)
{
    static uint8_t text[STRAP_TEXT_BYTES];
    static struct lent taken;
    const struct index *index = w->index;
    size_t n = write_roster(&w->labels, NEEDED_QUOTES, text);
    if (n == 0)
        return;
    if (take_anew(index, &taken, text, n) != pack(STRAP_TAKEN, 0, 0, w->labels.count, 0))
        fail("a roster is not taken");
    if (memcmp(&taken, entered(index, &w->labels), sizeof taken) != 0)
        fail("a roster leaves another table or store than inserts in its order");
    for (size_t k = 0; k < CHANGED_TEXTS; k++) {
        take_anew(index, &taken, text, below(n));
        compare_changed_text(index, &w->labels);
        compare_quoted_text(index, &w->labels);
        compare_quoted_labels(index, &w->labels);
    }
    for (size_t k = 0; k < DRAWN_TEXTS; k++)
        compare_drawn_text(index);
    compare_taken_out(w);
    compare_full(index);
}

void compare_answers(void)
{
    for (int number = 0; number < WORKLOADS; number++) {
        struct workload *w = make(number);
        for (size_t i = 0; i < QUERIES; i++)
            compare_search(w, w->queries.at[i].bytes, w->queries.at[i].len);
        for (size_t i = 0; i < CHANGED_BITS; i++)
            compare_changed(w, w->queries.at[i % QUERIES].bytes, w->queries.at[i % QUERIES].len);
        see_sound(w->index, w->table, w->store);
        if (has_updates(w))
            each_update(w, compare_update);
        if (w->index->save != NULL)
            compare_save(w);
        if (w->index->load != NULL)
            compare_load(w);
        if (w->index->take_roster != NULL && w->table_name != NULL)
            compare_roster(w);
    }
}
