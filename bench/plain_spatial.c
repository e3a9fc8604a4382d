/* Profiles 6 and 7 in plain C, dividing and stepping: the two steps of the carrier profiles, then the turn of the stream, by change request 4. */
#include "plain_carrier.h"

/* How far the stream turns a block: less than N. */
static uint32_t turn_of(const struct set *set)
{
    uint32_t i = set->stream - 1;
    return (2 * i % 3 + 3 * (i / 3)) * (set->profile == 6 ? 11 : 29) * set->bits;
}

/* L(t): the turn undone, then the two steps. */
INLINE uint32_t spatial_l(uint32_t d, uint32_t s, uint32_t n, uint32_t turn, uint32_t t) { return carrier_l(d, s, n, (t + turn) % n); }

/* M(k), as the formula has it. */
INLINE uint32_t spatial_m(uint32_t d, uint32_t s, uint32_t n, uint32_t turn, uint32_t k)
{
    uint32_t i = n / d * (k % d) + k / d, j = s * (i / s) + (i + n - d * i / n) % s;
    return (j + n - turn) % n;
}

INLINE uint32_t divide_l(uint32_t d, uint32_t s, uint32_t n, uint32_t turn, uint32_t cell, uint16_t *restrict out, size_t room)
{
    uint32_t count = least(n - cell, room);
    for (uint32_t i = 0; i < count; i++)
        out[i] = spatial_l(d, s, n, turn, cell + i);
    return count;
}

INLINE uint32_t divide_m(uint32_t d, uint32_t s, uint32_t n, uint32_t turn, uint32_t cell, uint16_t *restrict out, size_t room)
{
    uint32_t count = least(n - cell, room);
    for (uint32_t i = 0; i < count; i++)
        out[i] = spatial_m(d, s, n, turn, cell + i);
    return count;
}

/* As without a turn from the turned cell on, and after the block's end from its beginning. */
INLINE uint32_t step_l(uint32_t d, uint32_t s, uint32_t n, uint32_t turn, uint32_t cell, uint16_t *restrict out, size_t room)
{
    uint32_t count = least(n - cell, room), at = cell + turn < n ? cell + turn : cell + turn - n;
    for (uint32_t i = 0; i < count; at = 0)
        i += step_carrier(d, s, n, at, out + i, count - i);
    return count;
}

/* A column of the input at a time: base is the turned address of the group of s, lift the place in it, low that of the column's first. N and the turn
   are multiples of s. */
INLINE uint32_t step_m(uint32_t d, uint32_t s, uint32_t n, uint32_t turn, uint32_t cell, uint16_t *restrict out, size_t room)
{
    uint32_t count = least(n - cell, room), c = n / d, row = cell % d, col = cell / d, low = col % s;
    uint32_t base = (c * row + col - low + n - turn) % n, lift = (low + d * s - row) % s;
    uint32_t i = 0;
    while (i < count) {
        uint32_t stop = least(count, i + d - row);
        for (; i < stop; i++) {
            out[i] = base + lift;
            lift = lift == 0 ? s - 1 : lift - 1;
            base += c;
            if (base >= n)
                base -= n;
        }
        row = 0;
        if (++low == s) {
            low = 0;
            base = base + s == n ? 0 : base + s;
        }
        lift = low;
    }
    return count;
}

/* The walks: d is a constant for each profile. */
typedef uint32_t spatial_walk(uint32_t d, uint32_t s, uint32_t n, uint32_t turn, uint32_t cell, uint16_t *restrict out, size_t room);

INLINE uint32_t by_profile(spatial_walk *walk, const struct set *set, uint32_t cell, uint16_t *out, size_t room)
{
    uint32_t s = group_of(set), n = set->n, turn = turn_of(set);
    return set->profile == 6 ? walk(13, s, n, turn, cell, out, room) : walk(18, s, n, turn, cell, out, room);
}

#define WALK(name, walk) \
    uint32_t name(const struct set *set, uint32_t *cell, uint16_t *out, size_t room, uint32_t *written, uint32_t *cells) \
    { \
        uint32_t from = *cell, count = by_profile(walk, set, from, out, room); \
        return told(from, from + count, count, cell, written, cells); \
    }
WALK(divide_spatial, divide_l)
WALK(step_spatial, step_l)
WALK(divide_spatial_m, divide_m)
WALK(step_spatial_m, step_m)

/* Block moves: dividing straight by the formula, stepping by a table. */
INLINE void gather_spatial(uint32_t d, const struct set *set, const uint8_t *restrict src, uint8_t *restrict dst)
{
    uint32_t s = group_of(set), n = set->n, turn = turn_of(set);
    for (uint32_t t = 0; t < n; t++)
        dst[t] = src[spatial_l(d, s, n, turn, t)];
}

uint32_t divide_spatial_bytes(const struct set *set, const void *src, size_t a, void *dst, size_t b)
{
    (void)a, (void)b;
    if (set->profile == 6)
        gather_spatial(13, set, src, dst);
    else
        gather_spatial(18, set, src, dst);
    return 0;
}

uint32_t step_spatial_bytes(const struct set *set, const void *src, size_t a, void *dst, size_t b)
{
    uint16_t table[648];
    (void)a, (void)b;
    gather(table, by_profile(step_l, set, 0, table, set->n), 1, src, dst);
    return 0;
}
