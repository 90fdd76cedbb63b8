/* Makes each of the calls through include/strap_index.h, each refusal too, and tests what they answer: those of the
 * hub's index, but for strap_take_roster's, and built with PAGE those of the pairing page's. */
#include "calls.h"
#include "tested.h"

#ifdef PAGE
#define each_call page_each_call
#endif

static void refuses(const char *what, uint64_t answer, enum strap_refusal number)
{
    says(what, answer, STRAP_REFUSED, number, 0);
    counts(what, answer, 0, 0);
}

static uint64_t view_check(size_t slot) { return STRAP(view_check)(table, WORDS, store, BYTES, slot); }

/* The roster of document 01: "b", "a", "dd", "c". */
static void answers(void)
{
    uint64_t said;
    memset(table, 1, sizeof table);
    says("layout", layout(), STRAP_DONE, 0, 0);
    says("insert b", said = insert("b", 10), STRAP_UPDATED, 1, 0);
    counts("insert b", said, 0, 0);
    says("insert a", insert("a", 20), STRAP_UPDATED, 2, 0);
    says("insert dd", insert("dd", 65535), STRAP_UPDATED, 3, 0);
    says("insert c", said = insert("c", 40), STRAP_UPDATED, 4, 0);
    counts("insert c", said, 2, 2);
    counts("search da", lies_between("da", 4, 3), 3, 3);
    says("search dd", said = search("dd"), STRAP_FOUND, 3, 65535);
    counts("search dd", said, 2, 4);
    says("check", check(), STRAP_DONE, 0, 0);
    list[4] = 77;
    says("listing", listing(SLOTS), STRAP_LISTED, 4, 0);
    if (list[0] != 2 || list[1] != 1 || list[2] != 4 || list[3] != 3 || list[4] != 77)
        says("the list", 0, STRAP_LISTED, 4, 0);
    says("view check", view_check(3), STRAP_DONE, 0, 0);
    says("view", said = view(3), STRAP_VIEWED, 2 * WIDTH, 2);
    if (memcmp(store + strap_start_of(said), "dd", strap_length_of(said)) != 0)
        says("the part", 0, STRAP_VIEWED, 2 * WIDTH, 2);
    says("delete b", said = delete("b"), STRAP_UPDATED, 1, 0);
    counts("delete b", said, 1, 2);
}

/* Each number, on the same table; the table stays as it was. */
static void refusals(void)
{
    static uint16_t before[WORDS], other_table[OTHER_WORDS];
    static uint8_t other_store[OTHER_BYTES];
    static char label[WIDTH + 2];
    memcpy(before, table, sizeof table);
    memset(label, 'x', WIDTH + 1);
    refuses("1, layout", STRAP(layout)(table, WORDS - 1, store, BYTES), STRAP_WRONG_TABLE);
    refuses("1, view", STRAP(view)(table, WORDS - 1, store, BYTES, 3), STRAP_WRONG_TABLE);
    refuses("1, the other's memory", STRAP(layout)(other_table, OTHER_WORDS, other_store, OTHER_BYTES),
            STRAP_WRONG_TABLE);
    refuses("2, check", STRAP(check)(table, WORDS, store, BYTES - 1), STRAP_WRONG_STORE);
    refuses("2, the other's store", STRAP(check)(table, WORDS, other_store, OTHER_BYTES), STRAP_WRONG_STORE);
    refuses("2, view check", STRAP(view_check)(table, WORDS, store, 0, 3), STRAP_WRONG_STORE);
    refuses("3", search(""), STRAP_EMPTY_LABEL);
    refuses("4", insert(label, 1), STRAP_LONG_LABEL);
    label[WIDTH] = 0;
    lies_between(label, 3, 0);
    refuses("7", insert("a", 1), STRAP_ALREADY_HELD);
    refuses("8", delete("b"), STRAP_NOT_HELD);
    refuses("10", listing(2), STRAP_SHORT_LIST);
    refuses("11, freed slot", view(1), STRAP_WRONG_SLOT);
    refuses("11, slot 0", view_check(0), STRAP_WRONG_SLOT);
    refuses("11, one slot too many", view(SLOTS + 1), STRAP_WRONG_SLOT);
    refuses("11, slot 2^64 - 1", view((size_t)-1), STRAP_WRONG_SLOT);
    if (memcmp(before, table, sizeof table) != 0)
        says("the table after refusals", 0, STRAP_DONE, 0, 0);
    table[0] = SLOTS + 1;
    refuses("5", search("a"), STRAP_BROKEN_WALK);
    refuses("6, check", check(), STRAP_NOT_SOUND);
    refuses("6, listing", listing(SLOTS), STRAP_NOT_SOUND);
}

/* Capital and small letters are one, and the spelling first stored is kept; no other two bytes are one. */
static void spellings(void)
{
    uint64_t said;
    layout();
    says("insert anna", insert("anna", 10), STRAP_UPDATED, 1, 0);
    refuses("7, Anna", insert("Anna", 20), STRAP_ALREADY_HELD);
    says("search ANNA", said = search("ANNA"), STRAP_FOUND, 1, 10);
    counts("search ANNA", said, 1, 5);
    shows("the first spelling", 1, "anna");
    says("insert BEN", insert("BEN", 30), STRAP_UPDATED, 2, 0);
    says("search ben", search("ben"), STRAP_FOUND, 2, 30);
    says("check of both", check(), STRAP_DONE, 0, 0);
    says("delete aNNA", delete("aNNA"), STRAP_UPDATED, 1, 0);
    lies_between("anna", 0, 2);
    says("insert Anna", insert("Anna", 40), STRAP_UPDATED, 1, 0);
    shows("the new spelling", 1, "Anna");
    says("search anna", search("anna"), STRAP_FOUND, 1, 40);
    says("insert @", insert("@", 1), STRAP_UPDATED, 3, 0);
    says("insert `", insert("`", 2), STRAP_UPDATED, 4, 0);
    says("insert [", insert("[", 3), STRAP_UPDATED, 5, 0);
    says("insert {", insert("{", 4), STRAP_UPDATED, 6, 0);
    says("insert byte 192", insert("\300", 5), STRAP_UPDATED, 7, 0);
    says("insert byte 224", insert("\340", 6), STRAP_UPDATED, 8, 0);
    lies_between("Z", 2, 6);
    says("check of eight", check(), STRAP_DONE, 0, 0);
    says("listing of eight", listing(SLOTS), STRAP_LISTED, 8, 0);
    static const uint16_t order[] = {3, 5, 4, 1, 2, 6, 7, 8};
    if (memcmp(list, order, sizeof order) != 0)
        says("the order of eight", 0, STRAP_LISTED, 8, 0);
}

/* The slots next to an absent label: in an empty table, with one label, in the roster; with the place of "b" changed,
 * so that a walk goes right there and compares nothing; none where a walk is broken in the end. */
static void neighbours(void)
{
    layout();
    counts("search a in nothing", lies_between("a", 0, 0), 0, 0);
    insert("a", 20);
    counts("search aa", lies_between("aa", 1, 0), 1, 2);
    roster();
    counts("search DA", lies_between("DA", 4, 3), 3, 3);
    lies_between("AB", 2, 1);
    lies_between("!", 0, 2);
    lies_between("ddd", 3, 0);
    table[4 + 2] = 2;
    refuses("6, a place changed", check(), STRAP_NOT_SOUND);
    lies_between("a", 1, 4);
    table[4 + 8 * 3] = SLOTS + 1;
    refuses("5, at the fourth node", search("a"), STRAP_BROKEN_WALK);
}

/* Charges in a table of either index: unknown where a label goes in, 0 where one goes out; a table in which a charge is
 * 0 is sound, one with a number that is no charge is not. */
static void charges_kept(void)
{
    roster();
    charges_are("after inserts", 255, 255, 255, 255);
    table[4 + 8 * 3 + 7] = 0;
    says("check of a charge of 0", check(), STRAP_DONE, 0, 0);
    says("delete b of two sons", delete("b"), STRAP_UPDATED, 1, 0);
    charges_are("after a delete", 0, 255, 255, 0);
    table[4 + 8 * 3 + 7] = 101;
    refuses("6, a charge of 101", check(), STRAP_NOT_SOUND);
    table[4 + 8 * 3 + 7] = 100;
    table[4 + 7] = 100;
    refuses("6, a charge in a freed slot", check(), STRAP_NOT_SOUND);
}

#ifndef PAGE
/* Charges set, in any spelling; a node that takes a deleted one's place keeps its own. */
static void charges_set(void)
{
    uint64_t said;
    roster();
    says("charge of dd", said = set_charge("DD", 100), STRAP_UPDATED, 3, 0);
    counts("charge of dd", said, 2, 4);
    says("charge of c", set_charge("c", 0), STRAP_UPDATED, 4, 0);
    says("charge of b", set_charge("b", 57), STRAP_UPDATED, 1, 0);
    says("charge of b anew", set_charge("b", 255), STRAP_UPDATED, 1, 0);
    charges_are("once set", 255, 255, 100, 0);
    refuses("3 before 24", set_charge("", 101), STRAP_EMPTY_LABEL);
    refuses("24, of 101", set_charge("b", 101), STRAP_WRONG_CHARGE);
    refuses("24 before 8", set_charge("x", 254), STRAP_WRONG_CHARGE);
    refuses("24, of 65535", set_charge("b", 65535), STRAP_WRONG_CHARGE);
    refuses("8, no charge set", set_charge("x", 50), STRAP_NOT_HELD);
    charges_are("after refusals", 255, 255, 100, 0);
    says("check with charges", check(), STRAP_DONE, 0, 0);
    says("delete b with two sons", delete("b"), STRAP_UPDATED, 1, 0);
    charges_are("after b is deleted", 0, 255, 100, 0);
    says("insert b anew", insert("b", 11), STRAP_UPDATED, 1, 0);
    charges_are("after b is inserted anew", 255, 255, 100, 0);
    table[0] = SLOTS + 1;
    refuses("24 before 6", set_charge("b", 101), STRAP_WRONG_CHARGE);
    refuses("6, no charge set", set_charge("b", 50), STRAP_NOT_SOUND);
    refuses("1 before 24", strap_set_charge(table, WORDS - 1, store, BYTES, (const uint8_t *)"b", 1, 101),
            STRAP_WRONG_TABLE);
    refuses("2 before 24", strap_set_charge(table, WORDS, store, BYTES - 1, (const uint8_t *)"b", 1, 101),
            STRAP_WRONG_STORE);
}

static uint8_t output[STRAP_FILE_BYTES + 1];

static uint64_t save_from(size_t words, size_t bytes, size_t room)
{
    memset(output, HELD_BEFORE, sizeof output);
    return strap_save(table, words, store, bytes, output, room);
}

/* The output has these bytes at its front, and behind them what it held before the call. */
static void wrote(const char *what, const uint8_t *file, size_t n)
{
    int same = memcmp(output, file, n) == 0;
    for (size_t i = n; i < sizeof output; i++)
        same &= output[i] == HELD_BEFORE;
    if (!same) {
        fprintf(stderr, INDEX ": %s: other bytes\n", what);
        failed = 1;
    }
}

/* A save with so much room writes this file. */
static void saves(const char *what, size_t room, const uint8_t *file, size_t n)
{
    uint64_t said = save_from(WORDS, BYTES, room);
    says(what, said, STRAP_SAVED, (unsigned)n, 0);
    counts(what, said, 0, 0);
    if (strap_written_of(said) == n)
        wrote(what, file, n);
}

/* A save is refused, and writes nothing. */
static void saves_nothing(const char *what, size_t words, size_t bytes, size_t room, enum strap_refusal number)
{
    refuses(what, save_from(words, bytes, room), number);
    wrote(what, output, 0);
}

/* Files written out by hand, of no labels and of four: values of one group, two and three, and 0; the spelling first
 * stored; no charge. Each refusal before those after it. */
static void saved_files(void)
{
    static const uint8_t none[] = {0};
    static const uint8_t file[] = {4, 1, 'a', 128, 1, 1, 'b', 10, 1, 'C', 0, 2, 'd', 'd', 255, 255, 3};
    const size_t n = sizeof file;
    layout();
    saves("save of nothing", 1, none, 1);
    saves("save of nothing into more", sizeof output, none, 1);
    saves_nothing("17, no output", WORDS, BYTES, 0, STRAP_SHORT_OUTPUT);
    insert("b", 10);
    insert("a", 128);
    insert("dd", 65535);
    insert("C", 0);
    saves("save", n, file, n);
    saves("save into one byte more", n + 1, file, n);
    saves("save into more", sizeof output, file, n);
    set_charge("c", 57);
    saves("save with a charge", n, file, n);
    saves_nothing("17", WORDS, BYTES, n - 1, STRAP_SHORT_OUTPUT);
    saves_nothing("17, no output at all", WORDS, BYTES, 0, STRAP_SHORT_OUTPUT);
    saves_nothing("1, a word less", WORDS - 1, BYTES, n, STRAP_WRONG_TABLE);
    saves_nothing("2, a byte less", WORDS, BYTES - 1, n, STRAP_WRONG_STORE);
    table[1] = 3;
    saves_nothing("6, save", WORDS, BYTES, n, STRAP_NOT_SOUND);
    saves_nothing("6 before 17", WORDS, BYTES, n - 1, STRAP_NOT_SOUND);
    saves_nothing("2 before 6", WORDS, BYTES - 1, 0, STRAP_WRONG_STORE);
    saves_nothing("1 before 2", WORDS - 1, BYTES - 1, 0, STRAP_WRONG_TABLE);
    table[1] = 4;
    saves("save after all", n, file, n);
}

/* A file written out: its bytes, and how many. */
#define WRITTEN(...) (const uint8_t[]){__VA_ARGS__}, sizeof((const uint8_t[]){__VA_ARGS__})

/* A file is loaded into memory that holds anything: so many labels, on a sound table, and it is saved as the same. */
static void loads(const char *what, const uint8_t *file, size_t n, unsigned labels)
{
    spoil();
    uint64_t said = strap_load(table, WORDS, store, BYTES, file, n);
    says(what, said, STRAP_LOADED, labels, 0);
    counts(what, said, 0, 0);
    says(what, check(), STRAP_DONE, 0, 0);
    saves(what, n, file, n);
    for (size_t slot = 1; slot <= labels; slot++)
        if (strap_charge_in(table, slot) != STRAP_UNKNOWN_CHARGE)
            says("a charge after a load", 0, STRAP_LOADED, labels, 0);
}

/* A load is refused, and leaves the memory as it was. */
static void loads_nothing(const char *what, size_t words, size_t bytes, const uint8_t *file, size_t n,
                          enum strap_refusal number)
{
    spoil();
    keep();
    refuses(what, strap_load(table, words, store, bytes, file, n), number);
    as_kept(what);
}

static void broken(const char *what, const uint8_t *file, size_t n)
{
    loads_nothing(what, WORDS, BYTES, file, n, STRAP_BROKEN_FILE);
}

static void not_ascending(const char *what, const uint8_t *file, size_t n)
{
    loads_nothing(what, WORDS, BYTES, file, n, STRAP_NOT_ASCENDING);
}

static void bytes_after(const char *what, const uint8_t *file, size_t n)
{
    loads_nothing(what, WORDS, BYTES, file, n, STRAP_BYTES_AFTER);
}

/* Files written out by hand, and what they leave: what layout and inserts in file order leave; once also the words. */
static void loaded_files(void)
{
    static const uint8_t file[] = {4, 1, 'a', 128, 1, 1, 'b', 10, 1, 'C', 0, 2, 'd', 'd', 255, 255, 3};
    static const uint16_t words[] = {2, 4, 0, 4,                  /* root, held, free, high mark */
                                     0, 0, 1, 1, 1, 1, 128, 255,  /* a */
                                     1, 3, 1, 0, 2, 1, 10, 255,   /* b */
                                     0, 4, 1, 0, 2, 1, 0, 255,    /* C */
                                     0, 0, 1, 0, 1, 2, 65535, 255 /* dd */};
    layout();
    keep();
    loads("load of nothing", WRITTEN(0), 0);
    as_kept("load of nothing");
    lies_between("a", 0, 0);
    layout();
    insert("a", 20);
    keep();
    loads("load of a", WRITTEN(1, 1, 'a', 20), 1);
    as_kept("load of a");
    says("search a, loaded", search("A"), STRAP_FOUND, 1, 20);
    insert("b", 16384);
    keep();
    loads("load of a and b", WRITTEN(2, 1, 'a', 20, 1, 'b', 128, 128, 1), 2);
    as_kept("load of a and b");
    says("search b, loaded", search("b"), STRAP_FOUND, 2, 16384);
    loads("load of a and a with a zero byte", WRITTEN(2, 1, 'a', 0, 2, 'a', 0, 0), 2);
    loads("load of [ and Z", WRITTEN(2, 1, '[', 127, 1, 'Z', 255, 127), 2);
    says("search z, loaded", search("z"), STRAP_FOUND, 2, 16383);
    roster();
    set_charge("c", 57);
    loads("load of four", file, sizeof file, 4);
    if (memcmp(table, words, sizeof words) != 0)
        says("the words of four", 0, STRAP_LOADED, 4, 0);
    keep();
    layout();
    insert("a", 128);
    insert("b", 10);
    insert("C", 0);
    insert("dd", 65535);
    as_kept("inserts of four");
    says("search c, loaded", search("c"), STRAP_FOUND, 3, 0);
    says("search dd, loaded", search("DD"), STRAP_FOUND, 4, 65535);
    shows("the spelling loaded", 3, "C");
    lies_between("da", 3, 4);
    says("insert after a load", insert("da", 1), STRAP_UPDATED, 5, 0);
    says("delete after a load", delete("b"), STRAP_UPDATED, 2, 0);
    says("check after a load", check(), STRAP_DONE, 0, 0);
}

/* A table that was saved is loaded: other slots, the same labels, values and bytes. */
static void loaded_again(void)
{
    static uint8_t file[STRAP_FILE_BYTES];
    roster();
    set_charge("a", 57);
    size_t n = strap_written_of(strap_save(table, WORDS, store, BYTES, file, sizeof file));
    loads("load of a save", file, n, 4);
    says("search a, saved and loaded", search("a"), STRAP_FOUND, 1, 20);
    says("search b, saved and loaded", search("b"), STRAP_FOUND, 2, 10);
    says("search c, saved and loaded", search("c"), STRAP_FOUND, 3, 40);
    says("search dd, saved and loaded", search("dd"), STRAP_FOUND, 4, 30);
}

/* Each refusal of a file, and each before those after it. */
static void refused_files(void)
{
    static uint8_t file[2 + WIDTH + 2];
    const uint8_t *none = file;
    broken("18, no file", none, 0);
    broken("18, count cut short", WRITTEN(128));
    broken("18, count 0 of two groups", WRITTEN(128, 0));
    broken("18, count 1 of three groups", WRITTEN(129, 128, 0, 1, 'a', 20));
    broken("18, count 513", WRITTEN(129, 4));
    broken("18, count 0 past 64 bits", WRITTEN(128, 128, 128, 128, 128, 128, 128, 128, 128, 2));
    broken("18, count 1 past 32 bits", WRITTEN(129, 128, 128, 128, 16, 1, 'a', 20));
    broken("18, count 1 past 16 bits", WRITTEN(129, 128, 4, 1, 'a', 20));
    broken("18, no length", WRITTEN(1));
    broken("18, length 0", WRITTEN(1, 0, 20));
    broken("18, length cut short", WRITTEN(1, 129));
    broken("18, length 1 of two groups", WRITTEN(1, 129, 0, 'a', 20));
    broken("18, length 1 past 8 bits", WRITTEN(1, 129, 2, 'a', 20));
    broken("18, label cut short", WRITTEN(1, 3, 'a', 'b'));
    broken("18, no label", WRITTEN(1, 1));
    broken("18, no value", WRITTEN(1, 1, 'a'));
    broken("18, value cut short", WRITTEN(1, 1, 'a', 128));
    broken("18, value cut short after two", WRITTEN(1, 1, 'a', 255, 255));
    broken("18, value 0 of two groups", WRITTEN(1, 1, 'a', 128, 0));
    broken("18, value 127 of two groups", WRITTEN(1, 1, 'a', 255, 0));
    broken("18, value 1 of three groups", WRITTEN(1, 1, 'a', 129, 128, 0));
    broken("18, value 65536", WRITTEN(1, 1, 'a', 128, 128, 4));
    broken("18, value 65536 and 7", WRITTEN(1, 1, 'a', 135, 128, 4));
    broken("18, value of four groups", WRITTEN(1, 1, 'a', 129, 128, 128, 1));
    broken("18, no second label", WRITTEN(2, 1, 'a', 20));
    broken("18 before 20", WRITTEN(1, 1, 'a', 128, 0, 7, 7));
    memset(file, 'x', sizeof file);
    file[0] = 1;
    file[1] = WIDTH + 1;
    broken("18, length 65", file, 2 + WIDTH + 2);
    file[1] = WIDTH;
    broken("18, the longest label's value", file, 2 + WIDTH);
    loads("load of the longest label", file, 2 + WIDTH + 1, 1);
    bytes_after("20, after the longest label", file, 2 + WIDTH + 2);
    not_ascending("19, a label twice", WRITTEN(2, 1, 'a', 20, 1, 'a', 21));
    not_ascending("19, a label respelled", WRITTEN(2, 1, 'a', 20, 1, 'A', 21));
    not_ascending("19, a label respelled in small", WRITTEN(2, 2, 'A', 'B', 20, 2, 'a', 'b', 21));
    not_ascending("19, descending", WRITTEN(2, 1, 'b', 10, 1, 'a', 20));
    not_ascending("19, Z and [", WRITTEN(2, 1, 'Z', 10, 1, '[', 20));
    not_ascending("19, aa and a", WRITTEN(2, 2, 'a', 'a', 10, 1, 'a', 20));
    not_ascending("19, the third", WRITTEN(3, 1, 'a', 10, 1, 'c', 20, 1, 'b', 30));
    not_ascending("19 before the next label's 18", WRITTEN(3, 1, 'b', 10, 1, 'a', 20, 0));
    not_ascending("19 before 20", WRITTEN(2, 1, 'b', 10, 1, 'a', 20, 0));
    broken("18 of the length before 19", WRITTEN(2, 1, 'b', 10, 129, 0, 'a', 20));
    broken("18 of the bytes before 19", WRITTEN(2, 2, 'b', 'b', 10, 2, 'a'));
    broken("18 of the value before 19", WRITTEN(2, 1, 'b', 10, 1, 'a', 128, 128, 4));
    broken("18 of no value before 19", WRITTEN(2, 1, 'b', 10, 1, 'a'));
    bytes_after("20, after nothing", WRITTEN(0, 0));
    bytes_after("20, after a", WRITTEN(1, 1, 'a', 20, 1, 'b', 10));
    loads_nothing("1, a word less", WORDS - 1, BYTES, WRITTEN(0), STRAP_WRONG_TABLE);
    loads_nothing("2, a byte less", WORDS, BYTES - 1, WRITTEN(0), STRAP_WRONG_STORE);
    loads_nothing("1 before 2 and 18", OTHER_WORDS, OTHER_BYTES, none, 0, STRAP_WRONG_TABLE);
    loads_nothing("2 before 18", WORDS, OTHER_BYTES, none, 0, STRAP_WRONG_STORE);
    loads_nothing("2 before 19", WORDS, 0, WRITTEN(2, 1, 'b', 10, 1, 'a', 20), STRAP_WRONG_STORE);
    loads_nothing("1 before 20", 0, BYTES, WRITTEN(0, 0), STRAP_WRONG_TABLE);
}

/* A hundred groups that go on, in place of each number, ended or not. */
static void endless_numbers(void)
{
    static const uint8_t before[] = {1, 1, 'a'};
    uint8_t file[sizeof before + 101];
    for (size_t at = 0; at <= sizeof before; at++)
        if (at != 2) {
            memcpy(file, before, sizeof before);
            memset(file + at, 128, 100);
            file[at + 100] = 1;
            broken("18, a hundred groups", file, at + 100);
            broken("18, a hundred groups and one", file, at + 101);
        }
}
#endif

/* A full table, its first and last slot, one label more, and one sought in each gap. */
static void full(void)
{
    char label[5] = "000";
    layout();
    for (unsigned i = 0; i < SLOTS; i++) {
        spell(label, i);
        says("filling", insert(label, (uint16_t)i), STRAP_UPDATED, i + 1, 0);
    }
    refuses("9", insert("a", 1), STRAP_FULL);
    says("listing of all", listing(SLOTS), STRAP_LISTED, SLOTS, 0);
    says("view of 1", view(1), STRAP_VIEWED, 0, 3);
    says("view of the last", view(SLOTS), STRAP_VIEWED, BYTES - WIDTH, 3);
    lies_between("!", 0, 1);
    label[3] = '!';
    for (unsigned i = 0; i < SLOTS; i++) {
        spell(label, i);
        lies_between(label, i + 1, i + 1 < SLOTS ? i + 2 : 0);
    }
}

#ifndef PAGE
/* The longest file: 512 labels of 64 bytes, each with value 65,535. */
static void saved_full(void)
{
    static uint8_t file[STRAP_FILE_BYTES];
    char label[WIDTH + 1];
    size_t n = 0;
    memset(label, 'x', WIDTH);
    label[WIDTH] = 0;
    layout();
    file[n++] = 128;
    file[n++] = 4;
    for (unsigned i = 0; i < SLOTS; i++) {
        spell(label + WIDTH - 3, i);
        says("filling with the longest", insert(label, 65535), STRAP_UPDATED, i + 1, 0);
        file[n++] = WIDTH;
        memcpy(file + n, label, WIDTH);
        n += WIDTH;
        file[n++] = 255;
        file[n++] = 255;
        file[n++] = 3;
    }
    saves("save of the longest", n, file, n);
    saves("save of the longest into more", n + 1, file, n);
    saves_nothing("17, of the longest", WORDS, BYTES, n - 1, STRAP_SHORT_OUTPUT);
    keep();
    loads("load of the longest", file, n, SLOTS);
    as_kept("load of the longest");
    broken("18, the longest cut short", file, n - 1);
}

/* A file of so many labels, each with its number as its value; and how long it is. */
static size_t write_labels(uint8_t *file, unsigned labels)
{
    size_t n = 0;
    file[n++] = (uint8_t)(128 + labels % 128);
    file[n++] = (uint8_t)(labels / 128);
    for (unsigned i = 0; i < labels; i++) {
        char label[3];
        spell(label, i);
        file[n++] = 3;
        memcpy(file + n, label, 3);
        n += 3;
        if (i >= 128)
            file[n++] = (uint8_t)(128 + i % 128);
        file[n++] = (uint8_t)(i >= 128 ? i / 128 : i);
    }
    return n;
}

/* Files of as many labels as there are slots, of a byte more, and of one label more. */
static void loaded_full(void)
{
    static uint8_t file[2 + 6 * (SLOTS + 1)];
    char label[4] = "000";
    size_t n = write_labels(file, SLOTS);
    layout();
    for (unsigned i = 0; i < SLOTS; i++) {
        spell(label, i);
        insert(label, (uint16_t)i);
    }
    keep();
    loads("load of all", file, n, SLOTS);
    as_kept("load of all");
    for (unsigned i = 0; i < SLOTS; i++) {
        spell(label, i);
        says("search of all, loaded", search(label), STRAP_FOUND, i + 1, i);
    }
    refuses("9, after a load", insert("a", 1), STRAP_FULL);
    file[n] = 0;
    bytes_after("20, after all", file, n + 1);
    n = write_labels(file, SLOTS + 1);
    broken("18, a label more than all", file, n);
}
#endif

int each_call(void)
{
    answers();
    refusals();
    spellings();
    neighbours();
    charges_kept();
#ifndef PAGE
    charges_set();
    saved_files();
    loaded_files();
    loaded_again();
    refused_files();
    endless_numbers();
#endif
    full();
#ifndef PAGE
    saved_full();
    loaded_full();
#endif
    return failed;
}
