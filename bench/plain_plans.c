/* Plan files in plain C, with the tests that the library makes: a table by the walk, dividing or stepping, then two bytes an address compared with it, or
   written. */
#include "plain_tested.h"

static uint32_t number_at(const uint8_t *p) { return (uint32_t)p[0] << 24 | (uint32_t)p[1] << 16 | (uint32_t)p[2] << 8 | p[3]; }

static void put_number(uint8_t *p, uint32_t x) { p[0] = x >> 24, p[1] = x >> 16, p[2] = x >> 8, p[3] = x; }

static int formed(const uint8_t *file, size_t length)
{
    if (length < 4 || length > 65536)
        return 0;
    uint32_t plans = number_at(file);
    uint64_t at = 4 + 20 * (uint64_t)plans;
    if (plans < 1 || plans > 16 || length < at)
        return 0;
    for (const uint8_t *entry = file + 4; plans > 0; plans--, entry += 20) {
        if (number_at(entry + 12) != at)
            return 0;
        at += 2 * (uint64_t)number_at(entry + 16);
    }
    return at == length;
}

/* A list beside its table: what one of them has more is wrong. */
static void compare(const uint16_t *table, uint32_t n, const uint8_t *list, uint32_t count, uint32_t *first, uint32_t *wrong)
{
    uint32_t both = n < count ? n : count, at = 0, bad = 0;
    for (uint32_t t = 0; t < both; t++)
        if ((list[2 * t] << 8 | list[2 * t + 1]) != table[t] && bad++ == 0)
            at = t;
    if (n != count && bad == 0)
        at = both;
    *first = at;
    *wrong = bad + (n - both) + (count - both);
}

#define JUDGE(name, walk) \
    uint32_t name(const uint8_t *file, size_t length, uint32_t plan, uint32_t *first, uint32_t *wrong) \
    { \
        uint16_t table[5114]; \
        if (!formed(file, length)) \
            return 12; \
        if (plan == 0 || plan > number_at(file)) \
            return 4; \
        const uint8_t *entry = file + 20 * plan - 16; \
        struct set set = {number_at(entry), number_at(entry + 4), number_at(entry + 8), 1, {0}}; \
        uint32_t cell = 0, written, cells, number = tested(&set); \
        if (number != 0) \
            return number; \
        walk(&set, &cell, table, set.n, &written, &cells); \
        compare(table, set.n, file + number_at(entry + 12), number_at(entry + 16), first, wrong); \
        return 0; \
    }
JUDGE(divide_judge, divide_walk)
JUDGE(step_judge, step_walk)

static struct set set_of(const uint32_t *numbers) { return (struct set){numbers[0], numbers[1], numbers[2], 1, {0}}; }

/* The number of the first refusal, in the order of the library. */
static uint32_t unwritten(const uint32_t *sets, size_t numbers, size_t length)
{
    uint64_t bytes = 4 + 20 * (uint64_t)(numbers / 3);
    if (numbers % 3 != 0 || numbers < 3 || numbers > 48)
        return 12;
    for (size_t i = 0; i < numbers; i += 3) {
        struct set set = set_of(sets + i);
        uint32_t number = tested(&set);
        if (number != 0)
            return number;
        bytes += 2 * set.n;
    }
    return bytes > 65536 ? 12 : bytes != length ? 6 : 0;
}

static void put_list(uint8_t *restrict out, const uint16_t *restrict table, uint32_t n)
{
    for (uint32_t t = 0; t < n; t++)
        out[2 * t] = table[t] >> 8, out[2 * t + 1] = table[t];
}

#define WRITE(name, walk) \
    uint32_t name(const uint32_t *sets, size_t numbers, uint8_t *out, size_t length) \
    { \
        uint16_t table[5114]; \
        uint32_t number = unwritten(sets, numbers, length), at = 4 + 20 * (numbers / 3); \
        if (number != 0) \
            return number; \
        put_number(out, numbers / 3); \
        for (size_t i = 0; i < numbers; i += 3) { \
            struct set set = set_of(sets + i); \
            uint32_t entry[5] = {set.profile, set.bits, set.n, at, set.n}, cell = 0, written, cells; \
            for (int j = 0; j < 5; j++) \
                put_number(out + 4 + 20 * (i / 3) + 4 * j, entry[j]); \
            walk(&set, &cell, table, set.n, &written, &cells); \
            put_list(out + at, table, set.n); \
            at += 2 * set.n; \
        } \
        return 0; \
    }
WRITE(divide_write, divide_walk)
WRITE(step_write, step_walk)
