/* The strap label index for C99 and C++: the twelve calls of the hub's index, in the proved static library `exports`,
 * and the same, but for strap_set_charge, strap_save, strap_load and strap_take_roster, of the pairing page's own small
 * index, in `page_exports`.
 *
 * Build both with `bench/libraries`, and link target/staticlib/libexports.a, libpage_exports.a or both (x86-64 Linux).
 *
 * Labels are compared with A to Z as a to z, and kept as they were first spelled.
 *
 * A lent part (table, store, label, list, output, file, text) passes as its pointer and its length in elements. Any
 * length and any content is taken: a call answers, or refuses by a number below; a refused call has changed nothing,
 * but for strap_take_roster, which keeps the records before the refused one. The contracts stand in
 * crates/exports_c/src/lib.rt and crates/page_exports_c/src/lib.rt, and crates/packs/specs/Packed.antt defines the
 * packing.
 *
 * What is asked of a caller, since no proof reaches past the library:
 *   - each pointer is not null, is aligned for its type, and reaches as many elements as its length says, all of them
 *     initialised;
 *   - the parts lent to one call do not overlap;
 *   - they live through the call, and nothing else writes them, or reads a part without const, until it returns.
 * No call keeps a pointer, takes memory of its own or waits.
 */
#ifndef STRAP_INDEX_H
#define STRAP_INDEX_H

#include <stddef.h>
#include <stdint.h>

/* Sizes: labels held at most, bytes of a label at most, words of a table, bytes of a store. */
enum { STRAP_SLOTS = 512, STRAP_WIDTH = 64, STRAP_WORDS = 4100, STRAP_BYTES = 32768 };
enum { STRAP_PAGE_SLOTS = 32, STRAP_PAGE_WIDTH = 20, STRAP_PAGE_WORDS = 260, STRAP_PAGE_BYTES = 640 };

/* The longest saved file, so an output in which every table can be saved: the number of labels in two bytes, then for
 * each label its length in one byte, its 64 bytes, and its value in three. */
enum { STRAP_FILE_BYTES = 34818 };

/* The longest text that is taken as a roster. */
enum { STRAP_TEXT_BYTES = 16384 };

/* A strap's charge: 0 to 100, or unknown, as an insert leaves it. It is the last of its slot's eight words, which stand
 * from 4 + 8 * (slot - 1) on. */
enum { STRAP_UNKNOWN_CHARGE = 255 };
static inline unsigned strap_charge_in(const uint16_t *table, size_t slot) { return table[4 + 8 * (slot - 1) + 7]; }

/* An answer is one number, from its lowest bits: 4 of kind, 12 of places, 16 of visits, then 16 and 16, `one` and
 * `other` below. What a kind does not name is 0. Visits are the nodes that the call's search visited, places the places
 * of labels that it examined: on sound memory at most the visits and the most leading bytes, A to Z as a to z, that the
 * label sought shares with any one held. */
enum strap_kind {
    STRAP_REFUSED = 0, /* one: the refusal's number; other: of a roster the refused record's number, from 1, or 0 */
    STRAP_FOUND = 1,   /* places, visits; one: the label's slot; other: its value */
    STRAP_ABSENT = 2,  /* places, visits; one: the nearest smaller label's slot; other: the nearest larger's; 0: none */
    STRAP_UPDATED = 3, /* places, visits of the call's search; one: the slot taken or freed, or whose charge was set */
    STRAP_DONE = 4,    /* nothing more */
    STRAP_LISTED = 5,  /* one: how many slots were written */
    STRAP_VIEWED = 6,  /* one: where in the store the label begins; other: its length */
    STRAP_SAVED = 7,   /* one: how many bytes were written */
    STRAP_LOADED = 8,  /* one: how many labels were loaded */
    STRAP_TAKEN = 9    /* one: how many records of a roster went in */
};

/* Why a call is refused; of those that apply, the first in this order. The sizes are those of the index called. */
enum strap_refusal {
    STRAP_WRONG_TABLE = 1,    /* table not of its words: all calls */
    STRAP_WRONG_STORE = 2,    /* store not of its bytes: all calls */
    STRAP_LONG_TEXT = 12,     /* text above STRAP_TEXT_BYTES: take_roster */
    STRAP_BROKEN_FILE = 18,   /* a number or a label cut short, needless groups, or a number outside its limit: load */
    STRAP_NOT_ASCENDING = 19, /* a label not above the one before it; after its own 18: load */
    STRAP_BYTES_AFTER = 20,   /* bytes after the last label: load */
    STRAP_BROKEN_RECORD = 13, /* not RFC 4180, not two fields, or a value that is none: take_roster */
    STRAP_EMPTY_LABEL = 3,    /* label of length 0: search, insert, delete, set_charge, take_roster */
    STRAP_LONG_LABEL = 4,     /* label longer than its width: search, insert, delete, set_charge, take_roster */
    STRAP_WRONG_CHARGE = 24,  /* a charge neither 0 to 100 nor STRAP_UNKNOWN_CHARGE: set_charge */
    STRAP_WRONG_SLOT = 11,    /* slot 0 or above its slots, or its length word is 0 or above its width: the view */
    STRAP_BROKEN_WALK = 5,    /* the walk met a link or a row that cannot be: search */
    STRAP_NOT_SOUND = 6,      /* not sound: insert, delete, set_charge, check, listing, save, take_roster */
    STRAP_ALREADY_HELD = 7,   /* the label is held already, in this or another spelling: insert, take_roster */
    STRAP_NOT_HELD = 8,       /* the label is not held: delete, set_charge */
    STRAP_FULL = 9,           /* as many labels are held as it has slots: insert, take_roster */
    STRAP_SHORT_LIST = 10,    /* list shorter than the labels held: listing */
    STRAP_SHORT_OUTPUT = 17   /* output shorter than the file: save */
};

/* ---- the parts of an answer */

static inline unsigned strap_kind_of(uint64_t answer) { return (unsigned)(answer & 15); }
static inline unsigned strap_places_of(uint64_t answer) { return (unsigned)(answer >> 4 & 4095); }
static inline unsigned strap_visits_of(uint64_t answer) { return (unsigned)(answer >> 16 & 65535); }
static inline unsigned strap_one_of(uint64_t answer) { return (unsigned)(answer >> 32 & 65535); }
static inline unsigned strap_other_of(uint64_t answer) { return (unsigned)(answer >> 48 & 65535); }

/* by the kind: refused; refused roster; found or updated; found; absent; listed; viewed; saved; loaded; taken */
static inline unsigned strap_refusal_of(uint64_t answer) { return strap_one_of(answer); }
static inline unsigned strap_record_of(uint64_t answer) { return strap_other_of(answer); }
static inline unsigned strap_slot_of(uint64_t answer) { return strap_one_of(answer); }
static inline unsigned strap_value_of(uint64_t answer) { return strap_other_of(answer); }
static inline unsigned strap_below_of(uint64_t answer) { return strap_one_of(answer); }
static inline unsigned strap_above_of(uint64_t answer) { return strap_other_of(answer); }
static inline unsigned strap_count_of(uint64_t answer) { return strap_one_of(answer); }
static inline unsigned strap_start_of(uint64_t answer) { return strap_one_of(answer); }
static inline unsigned strap_length_of(uint64_t answer) { return strap_other_of(answer); }
static inline unsigned strap_written_of(uint64_t answer) { return strap_one_of(answer); }
static inline unsigned strap_loaded_of(uint64_t answer) { return strap_one_of(answer); }
static inline unsigned strap_taken_of(uint64_t answer) { return strap_one_of(answer); }

/* ---- the calls; each may answer STRAP_REFUSED, and else what stands above it */

#ifdef __cplusplus
extern "C" {
#endif

/* STRAP_DONE: every word and byte is 0, an empty table. */
uint64_t strap_layout(uint16_t *table, size_t words, uint8_t *store, size_t bytes);

/* STRAP_FOUND; or STRAP_ABSENT, with the slots of the label's neighbours: on a sound table the nearest smaller and the
 * nearest larger label held, on any other the last nodes where the walk went right and left. */
uint64_t strap_search(const uint16_t *table, size_t words, const uint8_t *store, size_t bytes, const uint8_t *label,
                      size_t n);

/* STRAP_UPDATED. */
uint64_t strap_insert(uint16_t *table, size_t words, uint8_t *store, size_t bytes, const uint8_t *label, size_t n,
                      uint16_t value);

/* STRAP_UPDATED. */
uint64_t strap_delete(uint16_t *table, size_t words, uint8_t *store, size_t bytes, const uint8_t *label, size_t n);

/* STRAP_UPDATED: the charge of the label's slot is set, and nothing else. */
uint64_t strap_set_charge(uint16_t *table, size_t words, const uint8_t *store, size_t bytes, const uint8_t *label,
                          size_t n, uint16_t charge);

/* STRAP_DONE: table and store are sound. */
uint64_t strap_check(const uint16_t *table, size_t words, const uint8_t *store, size_t bytes);

/* STRAP_LISTED: the slots stand in the list in ascending label order; later words of it stay. */
uint64_t strap_listing(const uint16_t *table, size_t words, const uint8_t *store, size_t bytes, uint16_t *list,
                       size_t room);

/* STRAP_SAVED: the file stands at the front of the output; later bytes of it stay. The file is the number of labels,
 * then for each label in ascending order its length, its bytes as they were first spelled, and its value. Numbers are
 * written in groups of seven bits, the lowest group first, the top bit set on all groups but the last, and never more
 * groups than needed; 0 takes one. Charges are not in it. */
uint64_t strap_save(const uint16_t *table, size_t words, const uint8_t *store, size_t bytes, uint8_t *output,
                    size_t room);

/* STRAP_LOADED: table and store, whatever they held, are those that inserting the file's labels in file order into an
 * empty table leaves; no charge is known. A file that strap_save wrote is taken, and so is no other: a save of what was
 * loaded writes the same bytes. The whole file is read before anything is written. Labels are checked in file order,
 * each wholly, its length, bytes and value by 18, then its order by 19, before the next. */
uint64_t strap_load(uint16_t *table, size_t words, uint8_t *store, size_t bytes, const uint8_t *file, size_t n);

/* STRAP_TAKEN: the records of a roster went in, each as strap_insert inserts it. The text is as RFC 4180 has it, fields
 * parted by commas, records by CR LF, quotes around a field where needed; a record has two fields, a label and a value,
 * 0 to 65535 in decimal; there is no header. STRAP_REFUSED names the first refused record, from 1: those before it went
 * in, it and those after it did not; or record 0, for 1, 2 and 12. An empty text has no records. Table and store are
 * tested once, after the first record's own tests. */
uint64_t strap_take_roster(uint16_t *table, size_t words, uint8_t *store, size_t bytes, const uint8_t *text, size_t n);

/* STRAP_DONE: the slot's label can be viewed. */
uint64_t strap_view_check(const uint16_t *table, size_t words, const uint8_t *store, size_t bytes, size_t slot);

/* STRAP_VIEWED: the slot's label is the part of the lent store from `start` on, `length` bytes long. */
uint64_t strap_view(const uint16_t *table, size_t words, const uint8_t *store, size_t bytes, size_t slot);

/* The same calls of the page's index, which keeps charges by the same rule. It has no call that sets one, and none that
 * saves, loads or takes a roster. */
uint64_t strap_page_layout(uint16_t *table, size_t words, uint8_t *store, size_t bytes);
uint64_t strap_page_search(const uint16_t *table, size_t words, const uint8_t *store, size_t bytes,
                           const uint8_t *label, size_t n);
uint64_t strap_page_insert(uint16_t *table, size_t words, uint8_t *store, size_t bytes, const uint8_t *label, size_t n,
                           uint16_t value);
uint64_t strap_page_delete(uint16_t *table, size_t words, uint8_t *store, size_t bytes, const uint8_t *label, size_t n);
uint64_t strap_page_check(const uint16_t *table, size_t words, const uint8_t *store, size_t bytes);
uint64_t strap_page_listing(const uint16_t *table, size_t words, const uint8_t *store, size_t bytes, uint16_t *list,
                            size_t room);
uint64_t strap_page_view_check(const uint16_t *table, size_t words, const uint8_t *store, size_t bytes, size_t slot);
uint64_t strap_page_view(const uint16_t *table, size_t words, const uint8_t *store, size_t bytes, size_t slot);

#ifdef __cplusplus
}
#endif
#endif
