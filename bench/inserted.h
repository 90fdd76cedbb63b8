/* An insert in plain C, in two parts, for loads and rosters: a search by the steps of digital.c, then a leaf hung where
 * it ends, and the nodes above that put in balance. The table is taken for sound, and nothing in it is tested. */
#ifndef INSERTED_H
#define INSERTED_H

#include "bench.h"
#include <stdbool.h>

/* The words of a row, sides, and balances. */
enum { LEFT, RIGHT, PLACE, SIDE, BALANCE, LENGTH, VALUE, CHARGE };
enum { PREDECESSOR, SUCCESSOR };
enum { LEFT_TALLER, EVEN, RIGHT_TALLER };

static inline uint16_t *row_of(uint16_t *table, size_t slot) { return table + 4 + 8 * (slot - 1); }

static inline uint16_t taller(bool right) { return right ? RIGHT_TALLER : LEFT_TALLER; }

/* Turns a node's left or right son up over it; gives the son's slot. Where the son's place is the one at which the two
 * differ, and the larger, they exchange their places: the node's is by its new parent now, and the son's by those next
 * to both. Of equal places the predecessor's counts. The root's place is 0 meanwhile. */
static inline uint16_t turn_once(uint16_t *table, uint16_t slot, bool right)
{
    uint16_t *row = row_of(table, slot), up = row[right], *son = row_of(table, up);
    uint16_t place = row[PLACE], side = row[SIDE];
    bool keeps_tie = right && side == PREDECESSOR;
    bool larger = keeps_tie ? place < son[PLACE] : place <= son[PLACE];
    if (larger && son[SIDE] == (right ? PREDECESSOR : SUCCESSOR)) {
        row[PLACE] = son[PLACE];
        row[SIDE] = right ? SUCCESSOR : PREDECESSOR;
        son[PLACE] = place;
        son[SIDE] = side;
    }
    row[right] = son[!right];
    son[!right] = slot;
    return up;
}

/* Turns a node that is out of balance by two, its left or right son the taller; gives the slot that is on top. */
static inline uint16_t turn(uint16_t *table, uint16_t slot, bool right)
{
    uint16_t *row = row_of(table, slot), *son = row_of(table, row[right]);
    if (son[BALANCE] == taller(right)) {
        row[BALANCE] = son[BALANCE] = EVEN;
    } else {
        uint16_t *middle = row_of(table, son[!right]);
        row[BALANCE] = middle[BALANCE] == taller(right) ? taller(!right) : EVEN;
        son[BALANCE] = middle[BALANCE] == taller(!right) ? taller(right) : EVEN;
        middle[BALANCE] = EVEN;
        row[right] = turn_once(table, row[right], !right);
    }
    return turn_once(table, slot, right);
}

/* The way of a search: the links that it followed, the root's first and an empty one last, and to which side it went
 * from each node; its P and S, and whether it went left and right at all. */
struct way {
    size_t length;
    uint16_t *link[DEPTH + 1];
    bool right[DEPTH];
    size_t p, s;
    bool went[2];
};

/* Searches for a label; false where it is held, and there is no way then. That is seen only where it may be held. */
static inline __attribute__((always_inline)) bool find_way(bool may_be_held, struct way *way, uint16_t *table,
                                                           const uint8_t *store, const uint8_t *label, size_t n)
{
    uint16_t *link = table;
    size_t p = 1, s = 1, length = 0;
    way->went[LEFT] = way->went[RIGHT] = false;
    while (*link != 0) {
        uint16_t *row = row_of(table, *link);
        size_t d = row[PLACE], reached = row[SIDE] == PREDECESSOR ? p : s;
        bool right;
        if (reached != d || s > d) {
            right = (reached <= d) == (row[SIDE] == PREDECESSOR);
        } else {
            size_t i = d - 1;
            int larger = is_larger(label, n, store + WIDTH * (*link - 1), row[LENGTH], &i);
            if (may_be_held && larger < 0)
                return false;
            right = larger == 1;
            if (right)
                p = i + 1;
            else
                s = i + 1;
        }
        way->went[right] = true;
        way->right[length] = right;
        way->link[length++] = link;
        link = row + right;
    }
    way->link[length] = link;
    way->length = length;
    way->p = p;
    way->s = s;
    return true;
}

/* Puts the nodes of a way in balance, from below, after a leaf was hung at its end. */
static inline void balance(uint16_t *table, const struct way *way)
{
    for (size_t i = way->length; i-- > 0;) {
        uint16_t *link = way->link[i], *row = row_of(table, *link);
        bool right = way->right[i];
        if (row[BALANCE] == taller(right)) {
            *link = turn(table, *link, right);
            return;
        }
        if (row[BALANCE] != EVEN) {
            row[BALANCE] = EVEN;
            return;
        }
        row[BALANCE] = taller(right);
    }
}

/* Hangs a label at the end of its way, in a slot whose words and bytes are 0, and puts the tree in balance. */
static inline void hang(uint16_t *table, uint8_t *store, const struct way *way, uint16_t slot, const uint8_t *label,
                        size_t n, size_t value)
{
    uint16_t *leaf = row_of(table, slot);
    table[1]++;
    leaf[PLACE] = (uint16_t)(way->p > way->s ? way->p : way->s);
    leaf[SIDE] = way->went[LEFT] && (!way->went[RIGHT] || way->s > way->p) ? SUCCESSOR : PREDECESSOR;
    leaf[BALANCE] = EVEN;
    leaf[LENGTH] = (uint16_t)n;
    leaf[VALUE] = (uint16_t)value;
    leaf[CHARGE] = STRAP_UNKNOWN_CHARGE;
    memcpy(store + WIDTH * (slot - 1), label, n);
    *way->link[way->length] = slot;
    row_of(table, table[0])[PLACE] = 0;
    balance(table, way);
    row_of(table, table[0])[PLACE] = 1;
}

#endif
