/* Profile 8 in plain C, dividing and stepping: LTE's quadratic interleaver, by change request 6. f1 and f2 are the set's first two factors. */
#include "plain_carrier.h"

/* L(t), as the formula has it: the product passes 32 bits. */
INLINE uint32_t lte_l(uint32_t k, uint32_t f1, uint32_t f2, uint32_t t)
{
    return ((uint64_t)f1 * t + (uint64_t)f2 * t * t) % k;
}

INLINE uint32_t divide_from(const struct set *set, uint32_t cell, uint16_t *restrict out, size_t room)
{
    uint32_t k = set->n, f1 = set->factors[0], f2 = set->factors[1], count = least(k - cell, room);
    for (uint32_t i = 0; i < count; i++)
        out[i] = lte_l(k, f1, f2, cell + i);
    return count;
}

/* The address, and how much more the next one is: that grows by 2 * f2. */
INLINE uint32_t step_from(const struct set *set, uint32_t cell, uint16_t *restrict out, size_t room)
{
    uint32_t k = set->n, f1 = set->factors[0], f2 = set->factors[1], count = least(k - cell, room);
    uint32_t value = lte_l(k, f1, f2, cell), twice = 2 * f2 % k, delta = (f1 + f2 + 2 * f2 * cell) % k;
    for (uint32_t i = 0; i < count; i++) {
        out[i] = value;
        value += delta;
        if (value >= k)
            value -= k;
        delta += twice;
        if (delta >= k)
            delta -= k;
    }
    return count;
}

WALK_BY(divide_lte, divide_from)
WALK_BY(step_lte, step_from)

/* Block moves: dividing straight by the formula, stepping by a table. */
INLINE uint32_t divide_move(const struct set *set, size_t size, const uint8_t *restrict src, uint8_t *restrict dst)
{
    uint32_t k = set->n, f1 = set->factors[0], f2 = set->factors[1];
    for (uint32_t t = 0; t < k; t++)
        memcpy(dst + size * t, src + size * lte_l(k, f1, f2, t), size);
    return 0;
}

INLINE uint32_t step_move(const struct set *set, size_t size, const uint8_t *src, uint8_t *dst)
{
    uint16_t table[6144];
    gather(table, step_from(set, 0, table, set->n), size, src, dst);
    return 0;
}

MOVE(divide_lte_bytes, divide_move, 1)
MOVE(divide_lte_soft, divide_move, 4)
MOVE(step_lte_bytes, step_move, 1)
MOVE(step_lte_soft, step_move, 4)
