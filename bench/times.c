/* Times the contestants on the named workloads, in rounds. In each round all of them seek the same labels. The order of
 * the labels and that of the contestants are drawn anew for it: neither is to be learnt by the processor.
 *
 * Printed are the best round of each, in nanoseconds of a call, and quartiles: the index's of its rounds, the others'
 * of their ratio to it within a round. */
#include "contestants.h"
#include <stdio.h>
#include <stdlib.h>
#include <string.h>
#include <time.h>

enum { ROUNDS = 600 };

static double now(void)
{
    struct timespec t;
    clock_gettime(CLOCK_MONOTONIC, &t);
    return (double)t.tv_sec * 1e9 + (double)t.tv_nsec;
}

static int by_size(const void *a, const void *b)
{
    double x = *(const double *)a, y = *(const double *)b;
    return (x > y) - (x < y);
}

/* Draws the order of things anew. */
static void shuffle(void *things, size_t count, size_t size)
{
    unsigned char *at = things, held[sizeof(struct label)];
    for (size_t left = count; left > 1; left--) {
        unsigned char *last = at + (left - 1) * size, *other = at + below(left) * size;
        memcpy(held, last, size);
        memmove(last, other, size);
        memcpy(other, held, size);
    }
}

static void time_round(struct workload *w, int *turn, double times[CONTESTANTS][ROUNDS], int round)
{
    shuffle(w->queries.at, QUERIES, sizeof *w->queries.at);
    shuffle(turn, CONTESTANTS, sizeof *turn);
    for (int k = 0; k < CONTESTANTS; k++) {
        double start = now();
        kept = kept + loop(turn[k], w);
        times[turn[k]][round] = (now() - start) / QUERIES;
    }
}

static void print_best(int number, const char *name, const double *times)
{
    double best = times[0];
    for (int round = 1; round < ROUNDS; round++)
        if (times[round] < best)
            best = times[round];
    printf("%d\t%s ns\t%f\n", number, name, best);
}

static void print_quartiles(int number, const char *name, double *rounds)
{
    qsort(rounds, ROUNDS, sizeof *rounds, by_size);
    printf("%d\t%s lower\t%f\n", number, name, rounds[(ROUNDS - 1) / 4]);
    printf("%d\t%s median\t%f\n", number, name, rounds[(ROUNDS - 1) / 2]);
    printf("%d\t%s upper\t%f\n", number, name, rounds[(ROUNDS - 1) * 3 / 4]);
}

void take_times(void)
{
    static double times[CONTESTANTS][ROUNDS];
    int turn[CONTESTANTS];
    for (int c = 0; c < CONTESTANTS; c++)
        turn[c] = c;
    printf("run\trounds\t%d\n", ROUNDS);
    for (int number = 0; number < NAMED; number++) {
        struct workload *w = make(number);
        for (int round = 0; round < ROUNDS; round++)
            time_round(w, turn, times, round);
        for (int c = CONTESTANTS - 1; c >= INDEX; c--) {
            print_best(number, contestant[c].name, times[c]);
            for (int round = 0; c != INDEX && round < ROUNDS; round++)
                times[c][round] /= times[INDEX][round];
            print_quartiles(number, contestant[c].name, times[c]);
        }
    }
}
