/* The benchmark: the contestants over the workloads, and what they answer and cost.
 *
 *   bench answers     compares every contestant's answers with the others'
 *   bench workloads   names, visits, places and their limits of every workload
 *   bench count       instructions: run it under callgrind, which dumps once for each number
 *   bench time        nanoseconds for a call on the named workloads, over many rounds in turn
 */
#include "contestants.h"
#include <string.h>

int main(int argc, char **argv)
{
    static const struct {
        const char *word;
        void (*run)(void);
    } words[] = {{"answers", compare_answers},
                 {"workloads", print_workloads},
                 {"count", count_instructions},
                 {"time", take_times}};
    for (size_t i = 0; argc == 2 && i < sizeof words / sizeof *words; i++)
        if (strcmp(argv[1], words[i].word) == 0) {
            words[i].run();
            return 0;
        }
    fail("one of answers, workloads, count, time");
}
