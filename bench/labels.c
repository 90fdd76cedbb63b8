/* Labels from a fixed generator. */
#include "labels.h"
#include <stdio.h>
#include <string.h>

static uint64_t state;

void seed(uint64_t number)
{
    state = number;
}

static uint64_t next(void)
{
    uint64_t z = state += 0x9e3779b97f4a7c15;
    z = (z ^ z >> 30) * 0xbf58476d1ce4e5b9;
    z = (z ^ z >> 27) * 0x94d049bb133111eb;
    return z ^ z >> 31;
}

size_t below(size_t n)
{
    return next() % n;
}

static bool spell_one(const uint8_t *a, const uint8_t *b, size_t n)
{
    size_t i = 0;
    return is_larger(a, n, b, n, &i) < 0;
}

/* Whether a list has the label, in any spelling. */
static bool holds(const struct labels *l, const uint8_t *x, size_t n)
{
    for (size_t i = 0; i < l->count; i++)
        if (l->at[i].len == n && spell_one(l->at[i].bytes, x, n))
            return true;
    return false;
}

static void add(struct labels *l, const uint8_t *x, size_t n)
{
    memset(l->at[l->count].bytes, 0, WIDTH);
    memcpy(l->at[l->count].bytes, x, n);
    l->at[l->count].len = n;
    l->count++;
}

static uint8_t any_byte(void)
{
    return (uint8_t)next();
}

static uint8_t any_letter(void)
{
    size_t i = below(52);
    return (uint8_t)(i < 26 ? 'A' + i : 'a' + i - 26);
}

void random_labels(struct labels *l, size_t count, bool letters, size_t shared, size_t least, size_t most)
{
    uint8_t (*any)(void) = letters ? any_letter : any_byte;
    uint8_t x[WIDTH];
    l->count = 0;
    for (size_t i = 0; i < shared; i++)
        x[i] = any();
    while (l->count < count) {
        size_t n = shared + least + below(most - least + 1);
        for (size_t i = shared; i < n; i++)
            x[i] = any();
        if (!holds(l, x, n))
            add(l, x, n);
    }
}

void roster(struct labels *l, size_t first)
{
    static const char *family[] = {"Abbott", "Adams", "Baker", "Barnes", "Carter", "Clarke", "Davies", "Dixon",
                                   "Edwards", "Ellis", "Fisher", "Foster", "Graham", "Green", "Harris", "Harrison",
                                   "Jackson", "Johnson", "Johnston", "Kelly", "Marshall", "Martin", "Robertson",
                                   "Robinson"};
    static const char *given[] = {"Alan", "Alice", "Anna", "Anne", "Ben", "Beth", "Carl", "Cath", "Dan", "Dora", "Emil",
                                  "Emma", "Frank", "Fred", "Gina", "Greg", "Hal", "Hanna", "Ian", "Ida", "Jack", "Jane",
                                  "Karl", "Kate", "Lars", "Lena", "Mark", "Mary", "Nils", "Nora", "Otto", "Olga"};
    l->count = 0;
    for (size_t f = 0; f < sizeof family / sizeof *family; f++)
        for (size_t g = first; g < sizeof given / sizeof *given; g += 2) {
            char name[WIDTH];
            int n = snprintf(name, sizeof name, "%s, %s", family[f], given[g]);
            add(l, (const uint8_t *)name, (size_t)n);
        }
}

void held_queries(struct labels *q, const struct labels *l)
{
    q->count = 0;
    while (q->count < QUERIES) {
        size_t i = below(l->count);
        add(q, l->at[i].bytes, l->at[i].len);
    }
}

void respelled_queries(struct labels *q, const struct labels *l)
{
    held_queries(q, l);
    for (size_t k = 0; k < q->count; k++)
        for (size_t i = 0; i < q->at[k].len; i++) {
            uint8_t *byte = q->at[k].bytes + i, small = number_of[*byte];
            if (small >= 'a' && small <= 'z')
                *byte ^= 'a' - 'A';
        }
}

void changed_queries(struct labels *q, const struct labels *l, bool last)
{
    q->count = 0;
    while (q->count < QUERIES) {
        uint8_t x[WIDTH];
        size_t i = below(l->count), n = l->at[i].len;
        memcpy(x, l->at[i].bytes, n);
        x[last ? n - 1 : below(4)] ^= (uint8_t)(1 + below(255));
        if (!holds(l, x, n))
            add(q, x, n);
    }
}

void other_queries(struct labels *q, const struct labels *l, size_t least, size_t most)
{
    q->count = 0;
    while (q->count < QUERIES) {
        uint8_t x[WIDTH];
        size_t n = least + below(most - least + 1);
        for (size_t i = 0; i < n; i++)
            x[i] = any_byte();
        if (!holds(l, x, n))
            add(q, x, n);
    }
}
