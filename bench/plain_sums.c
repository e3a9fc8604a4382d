/* Receptions added up in plain C, with the tests that the library makes: a table by the walk, dividing or stepping, then a pass that judges the
   block and a pass that adds it. */
#include "plain_tested.h"

/* 14, 13 and 15, each over the whole block. A sum of two is finite only where both are. */
static uint32_t judge(const uint16_t *table, uint32_t n, const float *received, const uint8_t *present, const float *sums, const uint16_t *counts)
{
    int high = 0, spoilt = 0, full = 0;
    for (uint32_t t = 0; t < n; t++) {
        uint32_t a = table[t], count = counts[a];
        if (present[t] != 0) {
            float sum = count != 0 ? sums[a] + received[t] : received[t];
            high |= present[t] > 1;
            spoilt |= !__builtin_isfinite(sum);
            full |= count == 65535;
        } else if (count != 0) {
            spoilt |= !__builtin_isfinite(sums[a]);
        }
    }
    return high ? 14 : spoilt ? 13 : full ? 15 : 0;
}

static void add(const uint16_t *table, uint32_t n, const float *restrict received, const uint8_t *restrict present, float *restrict sums,
                uint16_t *restrict counts)
{
    for (uint32_t t = 0; t < n; t++) {
        uint32_t a = table[t];
        if (present[t] != 0) {
            sums[a] = counts[a] != 0 ? sums[a] + received[t] : received[t];
            counts[a]++;
        }
    }
}

#define ADD(name, walk) \
    uint32_t name(const struct set *set, const float *received, size_t a, const uint8_t *present, size_t b, float *sums, size_t c, \
                  uint16_t *counts, size_t d) \
    { \
        uint16_t table[5114]; \
        uint32_t n = set->n, cell = 0, written, cells, number = tested(set); \
        if (number != 0) \
            return number; \
        if (a != n || b != n) \
            return 5; \
        if (c != n || d != n) \
            return 6; \
        walk(set, &cell, table, n, &written, &cells); \
        number = judge(table, n, received, present, sums, counts); \
        if (number == 0) \
            add(table, n, received, present, sums, counts); \
        return number; \
    }
ADD(divide_add, divide_walk)
ADD(step_add, step_walk)

uint32_t plain_read(const struct set *set, const float *sums, size_t a, const uint16_t *counts, size_t b, uint32_t position, float *sum,
                    uint16_t *count)
{
    uint32_t number = tested(set);
    if (number != 0)
        return number;
    if (position >= set->n)
        return 4;
    if (a != set->n || b != set->n)
        return 6;
    if (counts[position] != 0)
        *sum = sums[position];
    *count = counts[position];
    return 0;
}
