/* A call that does nothing: what the loop itself costs. */
#include "bench.h"

uint64_t nothing(const uint8_t *label, size_t n)
{
    (void)label;
    return n;
}
