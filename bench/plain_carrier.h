/* The first two steps of the carrier profiles in plain C, for L: dividing and stepping; and what every walk and every block move ends with. */
#ifndef PLAIN_CARRIER_H
#define PLAIN_CARRIER_H
#include "plain.h"

static inline uint32_t least(uint32_t a, uint32_t b) { return a < b ? a : b; }

static inline uint32_t group_of(const struct set *set) { return set->bits == 6 ? 3 : set->bits == 4 ? 2 : 1; }

/* Carrier profiles: L(t), as the formula has it. */
INLINE uint32_t carrier_l(uint32_t d, uint32_t s, uint32_t n, uint32_t t)
{
    uint32_t m = s * (t / s) + (t + d * t / n) % s;
    return d * m - (n - 1) * (d * m / n);
}

INLINE uint32_t divide_carrier(uint32_t d, uint32_t s, uint32_t n, uint32_t cell, uint16_t *restrict out, size_t room)
{
    uint32_t count = least(n - cell, room);
    for (uint32_t i = 0; i < count; i++)
        out[i] = carrier_l(d, s, n, cell + i);
    return count;
}

/* A row of the output at a time: base is the address without its turn, lift the turned place times d, low the place in a group of s. */
INLINE uint32_t step_carrier(uint32_t d, uint32_t s, uint32_t n, uint32_t cell, uint16_t *restrict out, size_t room)
{
    uint32_t count = least(n - cell, room), c = n / d, group = d * s;
    uint32_t row = cell / c, col = cell % c, low = col % s, base = d * (col - low) + row, lift = d * ((col + row) % s);
    uint32_t first = d * (row % s); /* the lift that this row began with */
    uint32_t i = 0;
    while (i < count) {
        uint32_t stop = least(count, i + c - col);
        for (; i < stop; i++) {
            out[i] = base + lift;
            lift += d;
            if (lift == group)
                lift = 0;
            if (++low == s) {
                low = 0;
                base += group;
            }
        }
        col = low = 0;
        base = ++row;
        first = first + d == group ? 0 : first + d;
        lift = first;
    }
    return count;
}

INLINE uint32_t told(uint32_t from, uint32_t to, uint32_t count, uint32_t *cell, uint32_t *written, uint32_t *cells)
{
    *cell = to;
    *written = count;
    *cells = to - from;
    return 0;
}

/* The walk of a set whose cells are its addresses, by one that fills a room from a cell on. */
#define WALK_BY(name, walk) \
    uint32_t name(const struct set *set, uint32_t *cell, uint16_t *out, size_t room, uint32_t *written, uint32_t *cells) \
    { \
        uint32_t from = *cell, count = walk(set, from, out, room); \
        return told(from, from + count, count, cell, written, cells); \
    }

/* A block by its table. size is 1 or 4, a constant where this is used; a memcpy of so many bytes is one load and one store. */
INLINE void gather(const uint16_t *table, uint32_t n, size_t size, const uint8_t *restrict src, uint8_t *restrict dst)
{
    for (uint32_t t = 0; t < n; t++)
        memcpy(dst + size * t, src + size * table[t], size);
}

#endif
