/* Profile 9 in plain C, dividing and stepping: the couples of WiMAX's turbo code, by change request 12. P0 to P3 are the set's factors. */
#include "plain_carrier.h"

/* Q, for b = j mod 4. */
INLINE uint32_t offset_of(const struct set *set, uint32_t b)
{
    const uint32_t *p = set->factors;
    return b == 0 ? 1 : b == 1 ? 1 + set->n / 2 + p[1] : b == 2 ? 1 + p[2] : 1 + set->n / 2 + p[3];
}

/* P(j), as the formula has it. The sum is below 2,400 * 2,400, so 32 bits do. */
INLINE uint32_t couple_of(uint32_t n, uint32_t p0, const uint32_t *q, uint32_t j) { return (p0 * j + q[j % 4]) % n; }

INLINE uint32_t divide_from(const struct set *set, uint32_t cell, uint16_t *restrict out, size_t room)
{
    uint32_t n = set->n, p0 = set->factors[0], count = least(n - cell, room), q[4];
    for (uint32_t b = 0; b < 4; b++)
        q[b] = offset_of(set, b);
    for (uint32_t i = 0; i < count; i++)
        out[i] = couple_of(n, p0, q, cell + i);
    return count;
}

/* The couple, and how much more the next one is: one of four steps, in turns. */
INLINE uint32_t step_from(const struct set *set, uint32_t cell, uint16_t *restrict out, size_t room)
{
    uint32_t n = set->n, p0 = set->factors[0], count = least(n - cell, room), step[4];
    for (uint32_t b = 0; b < 4; b++)
        step[b] = (p0 + offset_of(set, (b + 1) % 4) + 2 * n - offset_of(set, b)) % n;
    uint32_t value = (p0 * cell + offset_of(set, cell % 4)) % n;
    for (uint32_t i = 0; i < count; i++) {
        out[i] = value;
        value += step[(cell + i) % 4];
        if (value >= n)
            value -= n;
    }
    return count;
}

WALK_BY(divide_couples, divide_from)
WALK_BY(step_couples, step_from)

/* Output couple j, from couple c: an odd one is swapped. */
INLINE void move_couple(size_t size, const uint8_t *restrict src, uint32_t c, uint8_t *restrict dst, uint32_t j)
{
    memcpy(dst + size * (2 * j), src + size * (2 * c + c % 2), size);
    memcpy(dst + size * (2 * j + 1), src + size * (2 * c + 1 - c % 2), size);
}

/* Block moves: dividing straight by the formula, stepping by a table of couples. */
INLINE uint32_t divide_move(const struct set *set, size_t size, const uint8_t *restrict src, uint8_t *restrict dst)
{
    uint32_t n = set->n, p0 = set->factors[0], q[4];
    for (uint32_t b = 0; b < 4; b++)
        q[b] = offset_of(set, b);
    for (uint32_t j = 0; j < n; j++)
        move_couple(size, src, couple_of(n, p0, q, j), dst, j);
    return 0;
}

INLINE uint32_t step_move(const struct set *set, size_t size, const uint8_t *restrict src, uint8_t *restrict dst)
{
    uint16_t table[2400];
    uint32_t n = step_from(set, 0, table, set->n);
    for (uint32_t j = 0; j < n; j++)
        move_couple(size, src, table[j], dst, j);
    return 0;
}

MOVE(divide_couples_bytes, divide_move, 1)
MOVE(divide_couples_soft, divide_move, 4)
MOVE(step_couples_bytes, step_move, 1)
MOVE(step_couples_soft, step_move, 4)
