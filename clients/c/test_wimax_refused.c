/* What profile 9 refuses: its four numbers, by 11 and 10, beside all outputs tried; lengths that are those of couples; the walk for M, and receptions.
   test_order.c has the refusals in every call, test_lte_refused.c numbers that are not read. */
#include "test.h"

#define FAR 4294967295u

/* whether no two outputs have one couple, by trying them all */
static int apart(interleaver_set set) {
    static uint8_t seen[MAX];
    uint32_t j;
    memset(seen, 0, set.n);
    for (j = 0; j < set.n; j++)
        if (seen[couple_at(set, j)]++ != 0)
            return 0;
    return 1;
}

static uint32_t verdict(interleaver_set set) {
    const uint32_t *p = set.factors;
    if (p[0] >= set.n || p[1] >= set.n || p[2] >= set.n || p[3] >= set.n)
        return INTERLEAVER_FACTORS;
    return apart(set) ? INTERLEAVER_DONE : INTERLEAVER_SHARED;
}

/* every P0 to P3 of N 24 from 0 to 24; and how many fours are accepted */
static void every_four(void) {
    uint32_t i;
    unsigned wrong = 0, fit = 0, large = 0;
    for (i = 0; i < 25 * 25 * 25 * 25; i++) {
        interleaver_set set = interleaver_set_wimax(24, i % 25, i / 25 % 25, i / 625 % 25, i / 15625);
        uint32_t want = verdict(set);
        wrong += interleaver_test(&set) != want;
        fit += want == INTERLEAVER_DONE;
        large += want == INTERLEAVER_FACTORS;
    }
    EXPECT(wrong == 0);
    EXPECT(fit == 10368 && large == 25 * 25 * 25 * 25 - 24 * 24 * 24 * 24);
}

/* every size with any numbers, and with numbers whose remainders by 4 have a chance: P0 odd, P1 and P3 as N/2 asks, or P0 even */
static void every_size(void) {
    uint32_t n, x = 1, p[4];
    unsigned i, j, wrong = 0, fit = 0, unfit = 0;
    for (n = 24; n <= 2400; n += 4)
        for (i = 0; i < 40; i++) {
            interleaver_set set;
            uint32_t want;
            for (j = 0; j < 4; j++)
                p[j] = ((x = x * 1664525u + 1013904223u) >> 8) % (n + (i % 10 == 0));
            if (i % 4 != 0) {
                static const uint32_t rest[2][4] = {{1, 0, 0, 0}, {0, 1, 2, 3}}; /* of P0, N/2 + P1, P2 and N/2 + P3 */
                for (j = 0; j < 4; j++)
                    p[j] = (p[j] / 4 * 4 + rest[i % 2][j] + (j % 2 == 1 ? n / 2 : 0)) % n;
            }
            set = interleaver_set_wimax(n, p[0], p[1], p[2], p[3]);
            want = verdict(set);
            wrong += interleaver_test(&set) != want;
            fit += want == INTERLEAVER_DONE;
            unfit += want == INTERLEAVER_SHARED;
        }
    EXPECT(wrong == 0);
    EXPECT(fit > 3000 && unfit > 3000);
}

/* the order of a set's refusals: 2, 3, 16, 11, 10, and 1 before all of them. A P0 of 0 is below N, and gives one couple to many outputs */
static void numbers(void) {
    static const struct {
        uint32_t bits, n, stream, p[4], number;
    } known[] = {{1, 24, 1, {5, 0, 0, 0}, 0}, {1, 28, 1, {2, 1, 2, 3}, 0}, {1, 24, 1, {5, 1, 0, 0}, 10}, {1, 24, 1, {0, 0, 0, 0}, 10},
        {1, 24, 1, {3, 0, 0, 0}, 10}, {1, 24, 1, {2, 1, 2, 3}, 10}, {1, 28, 1, {7, 0, 0, 0}, 10}, {1, 24, 1, {24, 0, 0, 0}, 11},
        {1, 24, 1, {5, 24, 0, 0}, 11}, {1, 24, 1, {5, 0, 24, 0}, 11}, {1, 24, 1, {5, 0, 0, 24}, 11}, {1, 24, 1, {FAR, 0, 0, 0}, 11},
        {1, 24, 1, {5, FAR, 0, 0}, 11}, {1, 24, 1, {5, 0, FAR, 0}, 11}, {1, 24, 1, {5, 0, 0, FAR}, 11}, {1, 24, 1, {65541, 0, 0, 0}, 11},
        {1, 24, 1, {29, 0, 0, 0}, 11}, {1, 24, 1, {0, 24, 0, 0}, 11}, {1, 24, 1, {3, 1, 24, 0}, 11}, {1, 24, 2, {5, 0, 0, 0}, 16},
        {1, 24, 0, {5, 0, 0, 0}, 16}, {1, 24, 2, {24, 0, 0, 0}, 16}, {1, 24, FAR, {5, 1, 0, 0}, 16}, {1, 26, 1, {5, 0, 0, 0}, 3},
        {1, 20, 1, {5, 0, 0, 0}, 3}, {1, 2404, 1, {5, 0, 0, 0}, 3}, {1, 25, 2, {FAR, 0, 0, 0}, 3}, {1, 0, 1, {0, 0, 0, 0}, 3},
        {1, FAR, 1, {5, 0, 0, 0}, 3}, {1, 65560, 1, {5, 0, 0, 0}, 3}, {2, 24, 1, {5, 0, 0, 0}, 2}, {0, 26, 2, {FAR, 0, 0, 0}, 2},
        {FAR, 24, 1, {5, 1, 0, 0}, 2}};
    unsigned i;
    for (i = 0; i < sizeof known / sizeof known[0]; i++) {
        const uint32_t *p = known[i].p;
        interleaver_set set = interleaver_set_wimax(known[i].n, p[0], p[1], p[2], p[3]);
        set.bits = known[i].bits;
        set.stream = known[i].stream;
        EXPECT(interleaver_test(&set) == known[i].number);
        set.profile = 10;
        EXPECT(interleaver_test(&set) == INTERLEAVER_PROFILE);
    }
}

/* a block is 2n symbols long: n of them, one less and one more are refused, 5 before 6, and nothing is written */
static void lengths(interleaver_set set) {
    enum { WIDTH = 3 };
    static uint8_t src[WIDTH * MAX], dst[WIDTH * MAX];
    static float soft[MAX], out[MAX];
    size_t n = set.n, right = 2 * n, w = WIDTH, off[5], i;
    off[0] = n, off[1] = right - 1, off[2] = right + 1, off[3] = 0, off[4] = right + 2;
    memset(dst, 99, sizeof dst);
    memset(out, 99, sizeof out);
    for (i = 0; i < 5; i++) {
        size_t x = off[i], other = off[(i + 1) % 5];
        EXPECT(interleaver_interleave_bytes(&set, src, x, dst, right) == INTERLEAVER_INPUT);
        EXPECT(interleaver_interleave_bytes(&set, src, right, dst, x) == INTERLEAVER_OUTPUT);
        EXPECT(interleaver_interleave_bytes(&set, src, x, dst, other) == INTERLEAVER_INPUT);
        EXPECT(interleaver_deinterleave_bytes(&set, src, x, dst, x) == INTERLEAVER_INPUT);
        EXPECT(interleaver_deinterleave_bytes(&set, src, right, dst, x) == INTERLEAVER_OUTPUT);
        EXPECT(interleaver_interleave_soft(&set, soft, x, out, x) == INTERLEAVER_INPUT);
        EXPECT(interleaver_interleave_soft(&set, soft, right, out, x) == INTERLEAVER_OUTPUT);
        EXPECT(interleaver_deinterleave_soft(&set, soft, x, out, right) == INTERLEAVER_INPUT);
        EXPECT(interleaver_deinterleave_soft(&set, soft, right, out, x) == INTERLEAVER_OUTPUT);
        EXPECT(interleaver_interleave_symbols(&set, WIDTH, src, w * x, dst, w * x) == INTERLEAVER_INPUT);
        EXPECT(interleaver_interleave_symbols(&set, WIDTH, src, w * right, dst, w * x) == INTERLEAVER_OUTPUT);
        EXPECT(interleaver_deinterleave_symbols(&set, WIDTH, src, w * x, dst, w * right) == INTERLEAVER_INPUT);
        EXPECT(interleaver_deinterleave_symbols(&set, WIDTH, src, w * right, dst, w * x) == INTERLEAVER_OUTPUT);
    }
    EXPECT(interleaver_interleave_symbols(&set, WIDTH, src, w * right - 1, dst, w * right) == INTERLEAVER_INPUT);
    EXPECT(interleaver_deinterleave_symbols(&set, WIDTH, src, w * right, dst, w * right + 1) == INTERLEAVER_OUTPUT);
    EXPECT(all_bytes(dst, sizeof dst, 99) && all_bytes((const uint8_t *)out, sizeof out, 99));
}

/* receptions: 1 before every other fault, whether the buffers are as long as the block has couples or symbols, or anything; nothing is changed */
static void unreceived(interleaver_set set) {
    static const interleaver_set shape = SET(3, 4, 192, 1);
    size_t lengths_tried[] = {set.n, 2 * (size_t)set.n, 192, 7, 0};
    uint16_t count = 9;
    float sum = 2;
    unsigned i, j;
    for (i = 0; i < 5; i++) {
        size_t n = lengths_tried[i] < MAX ? lengths_tried[i] : MAX, length[4] = {n, n, n, n};
        all(shape, ONE, 1, ONE, PRESENT);
        EXPECT(add_with(set, length) == INTERLEAVER_PROFILE && same());
        hold(0, ONE, FULL); /* each fault of the block upon the other */
        hear(1, QUIET, PRESENT);
        hear(2, ONE, 2);
        EXPECT(add_with(set, length) == INTERLEAVER_PROFILE && same());
        for (j = 0; j < 4; j++) {
            length[j]++;
            EXPECT(add_with(set, length) == INTERLEAVER_PROFILE && same());
        }
        EXPECT(interleaver_read_sum(&set, now.sums, n, now.counts, n, 0, &sum, &count) == INTERLEAVER_PROFILE);
        EXPECT(interleaver_read_sum(&set, now.sums, n, now.counts, n + 1, FAR, &sum, &count) == INTERLEAVER_PROFILE);
    }
    EXPECT(bits_of(&sum) == TWO && count == 9 && same());
}

void wimax_refused(void) {
    static const interleaver_set sets[] = {WIMAX(24, 5, 0, 0, 0), WIMAX(28, 2, 1, 2, 3), WIMAX(96, 7, 48, 24, 72), WIMAX(2400, 53, 66, 24, 2),
        {9, 2, 24, 1, {5, 0, 0, 0}}, WIMAX(26, 5, 0, 0, 0), WIMAX(FAR, 5, 0, 0, 0), {9, 1, 24, 2, {5, 0, 0, 0}}, WIMAX(24, 24, 0, 0, 0),
        WIMAX(24, 5, 1, 0, 0)};
    unsigned i;
    every_four();
    every_size();
    numbers();
    for (i = 0; i < sizeof sets / sizeof sets[0]; i++) {
        if (i < 4)
            lengths(sets[i]);
        no_walk_m(sets[i]);
        unreceived(sets[i]);
    }
}
