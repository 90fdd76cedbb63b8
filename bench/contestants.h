/* The contestants over a workload: a loop for each that makes one call for each label sought; and updates. */
#ifndef CONTESTANTS_H
#define CONTESTANTS_H

#include "workloads.h"

/* The first is the loop with a call that does nothing. */
enum { NOTHING, INDEX, CONTESTANTS = 8 };

/* A contestant's loop over a workload of the hub, and over one of the page. */
extern const struct contestant {
    const char *name;
    uint64_t (*hub_loop)(const struct workload *);
    uint64_t (*page_loop)(const struct workload *);
} contestant[CONTESTANTS];

uint64_t loop(int number, const struct workload *w);

/* Takes what the loops give, so that none of them is left out. */
extern volatile uint64_t kept;

/* A label that is to be taken out, or put back. */
enum { UPDATES = 64 };

struct update {
    bool inserts;
    const uint8_t *label;
    size_t n;
    uint16_t value;
    const struct index *index;
    uint16_t *table;
    uint8_t *store;
};

/* Takes out and puts back a label, UPDATES times, on a copy of a workload's memory: `make` is given each update. */
void each_update(const struct workload *w, void (*make)(const struct update *));

/* Makes an update, and sees that it is not refused. */
void update(const struct update *u);

/* Lists the slots of a workload's labels, in ascending order of these; and of any labels, in the order in which they
 * are entered. */
void list_ascending(const struct workload *w, uint16_t *slots);
void list_entered(const struct labels *l, uint16_t *slots);

/* Lays out memory of the index, and inserts the labels of these slots into it, one after another. */
void insert_in_order(const struct index *index, const struct labels *l, const uint16_t *slots, uint16_t *table,
                     uint8_t *store);

/* Writes the labels of a list and their values as the text of a roster, of STRAP_TEXT_BYTES at most; gives how long it
 * is, or 0 where a label has a byte that cannot stand in one, or the text would be longer. Fields that need no quotes
 * have none, or it is drawn whether they have. */
enum quotes { NEEDED_QUOTES, DRAWN_QUOTES };
size_t write_roster(const struct labels *l, enum quotes quotes, uint8_t *text);

/* The words of bench: in answers.c, counts.c and times.c. */
void compare_answers(void);
void print_workloads(void);
void count_instructions(void);
void take_times(void);

#endif
