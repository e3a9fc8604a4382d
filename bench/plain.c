/* Walks and block moves in plain C, dividing and stepping: what a competent engineer writes from document 01 and change request 1. */
#include "plain_carrier.h"
#include "plain_primes.h"

/* WCDMA: what a block is set up with. s is S, less 1 where C = p - 1; base is T(i) * C. A prime q has a divisor in common with p - 1 only
   where it divides it, and the list of primes begins with 7. */
struct plan { uint32_t k, r, p, c, q[20], base[20]; uint16_t s[256]; };

static void plan_of(uint32_t k, struct plan *b)
{
    static const uint8_t roots[52] = {3, 2, 2, 3, 2, 5, 2, 3, 2, 6, 3, 5, 2, 2, 2, 2, 7, 5, 3, 2, 3, 5, 2, 5, 2, 6,
                                      3, 3, 2, 3, 2, 2, 6, 5, 2, 5, 2, 2, 2, 19, 5, 2, 3, 2, 3, 2, 6, 3, 7, 7, 6, 3};
    static const uint8_t orders[2][20] = {{19, 9, 14, 4, 0, 2, 5, 7, 12, 18, 16, 13, 17, 15, 3, 1, 6, 11, 8, 10},
                                          {19, 9, 14, 4, 0, 2, 5, 7, 12, 18, 10, 8, 13, 17, 3, 1, 16, 6, 15, 11}};
    int own = 481 <= k && k <= 530;
    uint32_t r = k < 160 ? 5 : k <= 200 || own ? 10 : 20, n = 0;
    while (!own && k > r * (primes[n] + 1))
        n++;
    uint32_t p = own ? 53 : primes[n], v = own ? 2 : roots[n];
    uint32_t c = own ? p : k <= r * (p - 1) ? p - 1 : k <= r * p ? p : p + 1;
    uint32_t power = 1, less = c == p - 1;
    for (uint32_t x = 0; x < p - 1; x++) {
        b->s[x] = power - less;
        power = v * power % p;
    }
    b->q[0] = 1;
    for (uint32_t i = 1, at = 0; i < r; at++)
        if ((p - 1) % primes[at] != 0)
            b->q[i++] = primes[at];
    const uint8_t *order = orders[!((2281 <= k && k <= 2480) || (3161 <= k && k <= 3210))];
    for (uint32_t i = 0; i < r; i++)
        b->base[i] = (r < 20 ? r - 1 - i : order[i]) * c;
    b->k = k, b->r = r, b->p = p, b->c = c;
}

/* A full rectangle, C = p + 1 and K = R * C, has no padding. U(p) and U(0) of its row 0 change places: the two addresses are written over behind a
   walk from a cell on. */
static void exchange(const struct plan *b, uint32_t from, uint16_t *out, size_t room)
{
    uint32_t last = b->p * b->r;
    if (b->c != b->p + 1 || b->k != b->r * b->c)
        return;
    if (from == 0 && room != 0)
        out[0] = b->k - 1;
    if (from <= last && last - from < room)
        out[last - from] = b->k - b->p;
}

static uint32_t divide_turbo(uint32_t k, uint32_t *cell, uint16_t *restrict out, size_t room)
{
    struct plan b;
    plan_of(k, &b);
    uint32_t m = b.p - 1, total = b.r * b.c, here = *cell, i = here % b.r, j = here / b.r, n = 0;
    for (; here < total && n < room; here++) {
        uint32_t u = j < m ? b.s[j * b.q[i] % m] : j == m ? 0 : b.p, a = b.base[i] + u;
        if (a < k)
            out[n++] = a;
        if (++i == b.r) {
            i = 0;
            j++;
        }
    }
    exchange(&b, *cell, out, room);
    *cell = here;
    return n;
}

/* A column at a time, or as many of its cells as surely have room; each row keeps its exponent, q more modulo p - 1 with each column. */
static uint32_t step_turbo(uint32_t k, uint32_t *cell, uint16_t *restrict out, size_t room)
{
    struct plan b;
    plan_of(k, &b);
    uint32_t m = b.p - 1, i = *cell % b.r, j = *cell / b.r, n = 0, e[20], step[20];
    for (uint32_t row = 0; row < b.r; row++) {
        step[row] = b.q[row] % m;
        e[row] = (j + (row < i)) * b.q[row] % m;
    }
    while (j < b.c && n < room) {
        uint32_t stop = i + least(b.r - i, room - n);
        for (; i < stop; i++) {
            uint32_t u = j < m ? b.s[e[i]] : j == m ? 0 : b.p, a = b.base[i] + u;
            e[i] += step[i];
            if (e[i] >= m)
                e[i] -= m;
            if (a < k)
                out[n++] = a;
        }
        if (i == b.r) {
            i = 0;
            j++;
        }
    }
    exchange(&b, *cell, out, room);
    *cell = j * b.r + i;
    return n;
}

/* The walks: d is a constant for each profile, and s too where it is written out. */
typedef uint32_t carrier_walk(uint32_t d, uint32_t s, uint32_t n, uint32_t cell, uint16_t *restrict out, size_t room);

INLINE uint32_t by_profile(carrier_walk *walk, const struct set *set, uint32_t s, uint32_t cell, uint16_t *out, size_t room)
{
    return set->profile == 1 ? walk(12, s, set->n, cell, out, room) : walk(16, s, set->n, cell, out, room);
}

INLINE uint32_t by_set(carrier_walk *walk, const struct set *set, uint32_t cell, uint16_t *out, size_t room)
{
    switch (group_of(set)) {
    case 1: return by_profile(walk, set, 1, cell, out, room);
    case 2: return by_profile(walk, set, 2, cell, out, room);
    default: return by_profile(walk, set, 3, cell, out, room);
    }
}

#define WALK(name, turbo, carrier) \
    uint32_t name(const struct set *set, uint32_t *cell, uint16_t *out, size_t room, uint32_t *written, uint32_t *cells) \
    { \
        uint32_t from = *cell, to = from, count; \
        if (set->profile == 5) \
            count = turbo(set->n, &to, out, room); \
        else \
            to += count = carrier; \
        return told(from, to, count, cell, written, cells); \
    }
WALK(divide_walk, divide_turbo, by_profile(divide_carrier, set, group_of(set), from, out, room))
WALK(step_walk, step_turbo, by_profile(step_carrier, set, group_of(set), from, out, room))
WALK(divide_walk_written_out, divide_turbo, by_set(divide_carrier, set, from, out, room))
WALK(step_walk_written_out, step_turbo, by_set(step_carrier, set, from, out, room))

/* Block moves. */
INLINE void gather_carrier(uint32_t d, uint32_t s, uint32_t n, size_t size, const uint8_t *restrict src, uint8_t *restrict dst)
{
    for (uint32_t t = 0; t < n; t++)
        memcpy(dst + size * t, src + size * carrier_l(d, s, n, t), size);
}

/* Dividing: a carrier block straight by the formula, a WCDMA block by a table. */
INLINE uint32_t divide_move(const struct set *set, size_t size, const void *src, void *dst)
{
    uint16_t table[5114];
    uint32_t cell = 0;
    if (set->profile == 5)
        gather(table, divide_turbo(set->n, &cell, table, set->n), size, src, dst);
    else if (set->profile == 1)
        gather_carrier(12, group_of(set), set->n, size, src, dst);
    else
        gather_carrier(16, group_of(set), set->n, size, src, dst);
    return 0;
}

/* Stepping: every block by a table. */
INLINE uint32_t step_move(const struct set *set, size_t size, const void *src, void *dst)
{
    uint16_t table[5114];
    uint32_t cell = 0, written, cells;
    step_walk(set, &cell, table, set->n, &written, &cells);
    gather(table, written, size, src, dst);
    return 0;
}

MOVE(divide_bytes, divide_move, 1)
MOVE(divide_soft, divide_move, 4)
MOVE(step_bytes, step_move, 1)
MOVE(step_soft, step_move, 4)
