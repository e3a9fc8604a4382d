/* Profile 9: lists, walks from any cell and single addresses (test_lists.c) beside the formula, blocks beside the standard's two steps, each written out by
   itself; the symbols of a block. test_wimax_refused.c has what is refused. */
#include "test.h"

enum { WIDEST = 8, COUPLES = 2400, SYMBOLS = 2 * COUPLES };

uint32_t couple_at(interleaver_set set, uint32_t j) {
    const uint32_t *p = set.factors;
    uint64_t q[4] = {1, (uint64_t)1 + set.n / 2 + p[1], (uint64_t)1 + p[2], (uint64_t)1 + set.n / 2 + p[3]};
    return (uint32_t)(((uint64_t)p[0] * j + q[j % 4]) % set.n);
}

static const interleaver_set sets[] = {WIMAX(24, 5, 0, 0, 0), WIMAX(24, 23, 23, 23, 22), WIMAX(28, 2, 1, 2, 3), WIMAX(28, 27, 26, 27, 27),
    WIMAX(96, 7, 48, 24, 72), WIMAX(240, 13, 120, 60, 180), WIMAX(2400, 53, 66, 24, 2), WIMAX(2400, 2399, 2399, 2399, 2398)};
enum { TRIED = sizeof sets / sizeof sets[0] };

static void lists(void) {
    static const uint16_t first[] = {1, 18, 11, 4, 21, 14, 7, 0};
    static uint16_t l[COUPLES];
    unsigned i, j;
    for (i = 0; i < TRIED; i++) {
        for (j = 0; j < sets[i].n; j++)
            l[j] = (uint16_t)couple_at(sets[i], j);
        EXPECT(i > 0 || memcmp(l, first, sizeof first) == 0);
        EXPECT(interleaver_test(&sets[i]) == INTERLEAVER_DONE);
        list_is(sets[i], l);
    }
}

/* every size: the list of factors that fit it, the walk in one and in two parts */
static void every_size(void) {
    static uint16_t l[COUPLES], out[COUPLES];
    uint32_t n, j, cell, written, cells;
    unsigned wrong = 0;
    for (n = 24; n <= COUPLES; n += 4) {
        interleaver_set set = interleaver_set_wimax(n, n - 1, n / 2 + 2, 0, n / 2 + 2); /* 1, 2, 3, 0 modulo 4 */
        for (j = 0; j < n; j++)
            l[j] = (uint16_t)couple_at(set, j);
        wrong += interleaver_test(&set) != INTERLEAVER_DONE || !walks_whole(set, l);
        cell = 0;
        wrong += interleaver_walk_l(&set, &cell, out, n / 3, &written, &cells) != INTERLEAVER_DONE || written != n / 3 || cell != n / 3;
        wrong += interleaver_walk_l(&set, &cell, out + n / 3, n, &written, &cells) != INTERLEAVER_DONE || written != n - n / 3 || cell != n;
        wrong += memcmp(out, l, 2 * n) != 0;
    }
    EXPECT(wrong == 0);
}

/* what a block of symbols of w bytes becomes. First step: odd-numbered couples swap A and B. Second: output couple j is couple P(j) */
static void two_steps(interleaver_set set, unsigned w, const uint8_t *src, uint8_t *out) {
    static uint8_t swapped[WIDEST * SYMBOLS];
    uint32_t c, j;
    memcpy(swapped, src, 2 * w * set.n);
    for (c = 1; c < set.n; c += 2) {
        memcpy(swapped + w * (2 * c), src + w * (2 * c + 1), w);
        memcpy(swapped + w * (2 * c + 1), src + w * (2 * c), w);
    }
    for (j = 0; j < set.n; j++)
        memcpy(out + 2 * w * j, swapped + 2 * w * couple_at(set, j), 2 * w);
}

static uint8_t src[WIDEST * SYMBOLS], want[WIDEST * SYMBOLS], dst[WIDEST * SYMBOLS + 1], back[WIDEST * SYMBOLS + 1];

/* symbols of w bytes, there and back */
static void of_width(interleaver_set set, unsigned w) {
    size_t size = w * interleaver_symbols(&set), i;
    for (i = 0; i < size; i++)
        src[i] = byte_of((uint32_t)i);
    two_steps(set, w, src, want);
    dst[size] = back[size] = 99;
    EXPECT(interleaver_interleave_symbols(&set, w, src, size, dst, size) == INTERLEAVER_DONE && dst[size] == 99);
    EXPECT(memcmp(dst, want, size) == 0);
    EXPECT(interleaver_deinterleave_symbols(&set, w, want, size, back, size) == INTERLEAVER_DONE && back[size] == 99);
    EXPECT(memcmp(back, src, size) == 0);
}

static void of_bytes(interleaver_set set) {
    size_t size = interleaver_symbols(&set), i;
    for (i = 0; i < size; i++)
        src[i] = byte_of((uint32_t)i + 1);
    two_steps(set, 1, src, want);
    dst[size] = back[size] = 99;
    EXPECT(interleaver_interleave_bytes(&set, src, size, dst, size) == INTERLEAVER_DONE && dst[size] == 99);
    EXPECT(memcmp(dst, want, size) == 0);
    EXPECT(interleaver_deinterleave_bytes(&set, want, size, back, size) == INTERLEAVER_DONE && back[size] == 99);
    EXPECT(memcmp(back, src, size) == 0);
}

/* floats by their bits: a third of them NaNs of both signs */
static void of_floats(interleaver_set set) {
    static float soft[SYMBOLS], sent[SYMBOLS + 1], received[SYMBOLS + 1];
    size_t size = interleaver_symbols(&set), bytes = size * sizeof soft[0], i;
    for (i = 0; i < size; i++) {
        uint32_t bits = ((uint32_t)i + 1) * 2654435761u | (i % 3 == 0 ? 0x7f800000u : 0);
        memcpy(src + 4 * i, &bits, sizeof bits);
    }
    two_steps(set, sizeof soft[0], src, want);
    memcpy(soft, src, bytes);
    sent[size] = received[size] = 99;
    EXPECT(interleaver_interleave_soft(&set, soft, size, sent, size) == INTERLEAVER_DONE && sent[size] == 99);
    EXPECT(memcmp(sent, want, bytes) == 0);
    EXPECT(interleaver_deinterleave_soft(&set, sent, size, received, size) == INTERLEAVER_DONE && received[size] == 99);
    EXPECT(memcmp(received, src, bytes) == 0);
}

/* couple 1 is odd, and comes first: its B, its A; couple 18, which is even, stands second: its A, its B */
static void by_hand(void) {
    static const uint8_t first[] = {3, 2, 36, 37, 23, 22, 8, 9, 43, 42, 28, 29, 15, 14, 0, 1};
    uint8_t in[48], out[48];
    unsigned i;
    for (i = 0; i < 48; i++)
        in[i] = (uint8_t)i;
    EXPECT(interleaver_interleave_bytes(&sets[0], in, 48, out, 48) == INTERLEAVER_DONE && memcmp(out, first, sizeof first) == 0);
}

/* how many symbols a block has: of profile 9 two for each of n, of every other n; it tests nothing */
static void how_many(void) {
    interleaver_set made = interleaver_set_wimax(24, 5, 6, 7, 8);
    unsigned i;
    EXPECT(made.profile == 9 && made.bits == 1 && made.n == 24 && made.stream == 1);
    EXPECT(made.factors[0] == 5 && made.factors[1] == 6 && made.factors[2] == 7 && made.factors[3] == 8);
    EXPECT(interleaver_symbols(&made) == 48);
    for (i = 0; i < SETS; i++)
        EXPECT(interleaver_symbols(&accepted[i]) == (accepted[i].profile == 9 ? 2 : 1) * accepted[i].n && interleaver_symbols(&accepted[i]) <= MAX);
    made.n = 4294967295u;
    EXPECT(interleaver_symbols(&made) == (size_t)8589934590u);
    made.profile = 10, made.bits = 7, made.stream = 0;
    EXPECT(interleaver_symbols(&made) == 4294967295u);
}

void wimax(void) {
    unsigned i, w;
    lists();
    every_size();
    by_hand();
    how_many();
    for (i = 0; i < TRIED; i++) {
        for (w = 1; w <= WIDEST; w++)
            of_width(sets[i], w);
        of_bytes(sets[i]);
        of_floats(sets[i]);
    }
}
