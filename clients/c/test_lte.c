/* Profile 8: lists, walks from any cell, single addresses (test_lists.c), blocks and receptions beside the formula, which is worked out in 64 bits; the
   standard's own factors. test_lte_refused.c has what is refused. */
#include "test.h"

static uint16_t l[MAX]; /* the list of a set by its formula */

uint32_t quadratic(interleaver_set set, uint32_t t) {
    uint64_t f1 = set.factors[0], f2 = set.factors[1], x = t;
    return (uint32_t)((f1 * x + f2 * x * x) % set.n);
}

uint32_t next_k(uint32_t k) { return k + (k < 512 ? 8 : k < 1024 ? 16 : k < 2048 ? 32 : 64); }

static void reckon(interleaver_set set) {
    uint32_t t;
    for (t = 0; t < set.n; t++)
        l[t] = (uint16_t)quadratic(set, t);
}

static void lists(void) {
    static const interleaver_set sets[] = {LTE(40, 3, 10), LTE(40, 39, 30), LTE(48, 7, 12), LTE(64, 63, 62), LTE(512, 31, 64), LTE(528, 17, 66),
        LTE(1024, 31, 64), LTE(1056, 17, 66), LTE(2048, 31, 64), LTE(2112, 17, 66), LTE(6144, 263, 480), LTE(6144, 6143, 6138)};
    static const uint16_t first[] = {0, 13, 6, 19, 12};
    unsigned i;
    for (i = 0; i < sizeof sets / sizeof sets[0]; i++) {
        reckon(sets[i]);
        EXPECT(i > 0 || memcmp(l, first, sizeof first) == 0);
        list_is(sets[i], l);
    }
}

/* every k: the listed ones have factors that are accepted, and a list that is the formula's; the others are no set's, and leave what is lent alone */
static void standard(void) {
    static const uint32_t rows[][3] = {{40, 3, 10}, {48, 7, 12}, {504, 55, 84}, {512, 31, 64}, {528, 17, 66}, {1008, 55, 84}, {1024, 31, 64},
        {1056, 17, 66}, {2016, 113, 420}, {2048, 31, 64}, {2112, 17, 66}, {6080, 47, 190}, {6144, 263, 480}};
    static const uint32_t far[] = {6208, 65576, 2147483688u, 4294967295u};
    const uint32_t none = 0xa5a5a5a5u;
    uint32_t k, listed = 40, last = 0, count = 0, weight = 0, f[6];
    unsigned i, wrong = 0;
    for (k = 0; k <= 6204; k++) {
        uint32_t asked = k <= 6200 ? k : far[k - 6201], number;
        interleaver_set set = interleaver_set_lte(asked, 3, 10);
        memset(f, 0xa5, sizeof f);
        number = interleaver_lte_factors(asked, f + 1);
        wrong += f[0] != none || f[5] != none;
        if (asked != listed) {
            wrong += number != INTERLEAVER_SIZE || f[1] != none || f[2] != none || f[3] != none || f[4] != none;
            wrong += interleaver_test(&set) != INTERLEAVER_SIZE;
            continue;
        }
        set = interleaver_set_lte(k, f[1], f[2]);
        reckon(set);
        wrong += number != INTERLEAVER_DONE || f[3] != 0 || f[4] != 0 || interleaver_test(&set) != INTERLEAVER_DONE || !walks_whole(set, l);
        weight = (weight * 31 + f[1]) * 31 + f[2];
        last = k;
        listed = k < MAX ? next_k(k) : 0;
        count++;
    }
    EXPECT(wrong == 0);
    EXPECT(count == 188 && last == MAX);
    EXPECT(weight == 1642966102u); /* as the table of the standard gives it, row by row */
    for (i = 0; i < sizeof rows / sizeof rows[0]; i++) {
        EXPECT(interleaver_lte_factors(rows[i][0], f) == INTERLEAVER_DONE && f[0] == rows[i][1] && f[1] == rows[i][2] && f[2] == 0 && f[3] == 0);
    }
}

/* minus zero, NaNs of both signs, and any */
static uint32_t pattern(uint32_t t) {
    switch (t % 4) {
    case 0: return 0x80000000u;
    case 1: return 0x7fc00000u | t;
    case 2: return 0xff800000u | t;
    default: return (t + 1) * 2654435761u;
    }
}

/* output t is input L(t), and comes back: bytes, floats by their bits, symbols of 3 bytes */
static void blocks(interleaver_set set) {
    enum { WIDTH = 3 };
    static uint8_t src[WIDTH * MAX], dst[WIDTH * MAX + 1], back[WIDTH * MAX + 1];
    static float soft[MAX], sent[MAX], received[MAX];
    size_t n = set.n;
    unsigned t, wrong = 0;
    reckon(set);
    for (t = 0; t < WIDTH * n; t++)
        src[t] = byte_of(t);
    for (t = 0; t < n; t++) {
        uint32_t bits = pattern(t);
        memcpy(soft + t, &bits, sizeof bits);
    }
    dst[n] = back[n] = 99;
    EXPECT(interleaver_interleave_bytes(&set, src, n, dst, n) == INTERLEAVER_DONE && dst[n] == 99);
    EXPECT(interleaver_interleave_soft(&set, soft, n, sent, n) == INTERLEAVER_DONE);
    for (t = 0; t < n; t++)
        wrong += (dst[t] != src[l[t]]) + (bits_of(sent + t) != pattern(l[t]));
    EXPECT(wrong == 0);
    EXPECT(interleaver_deinterleave_bytes(&set, dst, n, back, n) == INTERLEAVER_DONE && back[n] == 99 && memcmp(back, src, n) == 0);
    EXPECT(interleaver_deinterleave_soft(&set, sent, n, received, n) == INTERLEAVER_DONE && memcmp(received, soft, n * sizeof soft[0]) == 0);
    dst[WIDTH * n] = back[WIDTH * n] = 99;
    EXPECT(interleaver_interleave_symbols(&set, WIDTH, src, WIDTH * n, dst, WIDTH * n) == INTERLEAVER_DONE && dst[WIDTH * n] == 99);
    for (t = 0; t < n; t++)
        wrong += memcmp(dst + WIDTH * t, src + WIDTH * l[t], WIDTH) != 0;
    EXPECT(wrong == 0);
    EXPECT(interleaver_deinterleave_symbols(&set, WIDTH, dst, WIDTH * n, back, WIDTH * n) == INTERLEAVER_DONE && back[WIDTH * n] == 99);
    EXPECT(memcmp(back, src, WIDTH * n) == 0);
}

/* two receptions of a block with a fifth blank: value t, which is t + 1, goes to L(t) */
static void receptions(interleaver_set set) {
    uint32_t round, t, wrong;
    reckon(set);
    all(set, QUIET, 0, QUIET, ABSENT);
    for (round = 1; round <= 2; round++) {
        for (t = 0; t < set.n; t++) {
            float value = (float)(t + 1);
            if (t % 5 != 0)
                hear(t, bits_of(&value), PRESENT);
        }
        EXPECT(add(set) == INTERLEAVER_DONE);
        for (wrong = 0, t = 0; t < set.n; t++) {
            float total = (float)(round * (t + 1));
            uint32_t want = t % 5 == 0 ? QUIET : bits_of(&total), sum = FIVE;
            uint16_t times = (uint16_t)(t % 5 == 0 ? 0 : round), count = 9;
            wrong += !holds(l[t], want, times) || read_at(set, l[t], &sum, &count) != INTERLEAVER_DONE;
            wrong += count != times || sum != (times == 0 ? FIVE : want);
        }
        EXPECT(wrong == 0);
        memcpy(kept.sums, now.sums, set.n * sizeof now.sums[0]);
        memcpy(kept.counts, now.counts, set.n * sizeof now.counts[0]);
        EXPECT(same()); /* the guards, and what is behind place n */
    }
}

void lte(void) {
    static const interleaver_set sets[] = {LTE(40, 3, 10), LTE(6144, 263, 480)};
    unsigned i;
    lists();
    standard();
    for (i = 0; i < 2; i++) {
        blocks(sets[i]);
        receptions(sets[i]);
    }
}
