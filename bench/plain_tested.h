/* The test of a set in plain C, where receptions are added up and where plan files are judged and written. */
#ifndef PLAIN_TESTED_H
#define PLAIN_TESTED_H
#include "plain.h"

/* The number of a set's refusal, of the profiles that are measured. */
static uint32_t tested(const struct set *set)
{
    uint32_t b = set->bits, n = set->n, last = set->stream != 1 ? 16 : 0;
    if (set->profile == 5)
        return b != 1 ? 2 : n < 40 || n > 5114 ? 3 : last;
    if (set->profile != 1 && set->profile != 3)
        return 1;
    if (b != 1 && b != 2 && b != 4 && b != 6)
        return 2;
    if (set->profile == 3)
        return n == 48 * b ? last : 3;
    for (uint32_t w = 1; w <= 16; w *= 2)
        if (n == 12 * b * w)
            return last;
    return 3;
}

#endif
