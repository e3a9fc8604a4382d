/* Receptions and readings that are refused: each refusal, their order, and what a refused call leaves alone. */
#include "test.h"

static int refuses(interleaver_set set, uint32_t number) { return add(set) == number && same(); }

/* each length by itself one less and one more, and two at a time: 5 before 6 */
static void lengths(interleaver_set set) {
    size_t n = set.n, none[4] = {0, 0, 0, 0}, crossed[4] = {n - 1, n + 1, n, n};
    unsigned i, j, d;
    all(set, ONE, 1, ONE, PRESENT);
    for (d = 0; d < 4; d++)
        for (i = 0; i < 4; i++)
            for (j = 0; j < 4; j++) {
                size_t length[4] = {n, n, n, n};
                length[i] = n - 1 + d / 2 * 2;
                length[j] = n - 1 + d % 2 * 2;
                EXPECT(add_with(set, length) == (i < 2 || j < 2 ? INTERLEAVER_INPUT : INTERLEAVER_OUTPUT) && same());
            }
    EXPECT(add_with(set, none) == INTERLEAVER_INPUT && same());
    EXPECT(add_with(set, crossed) == INTERLEAVER_INPUT && same());
    none[0] = none[1] = n;
    EXPECT(add_with(set, none) == INTERLEAVER_OUTPUT && same());
}

/* one fault upon the other at places t and u: a later one, that is tested earlier, goes first */
static void order(interleaver_set set, const uint16_t *l, uint32_t t, uint32_t u) {
    static const uint8_t high[] = {2, 3, 128, 129, 254, 255};
    size_t length[4] = {set.n, set.n, set.n, set.n + 1};
    unsigned i;
    all(set, ONE, 1, ONE, PRESENT);
    hold(l[t], ONE, FULL);
    EXPECT(refuses(set, INTERLEAVER_COUNT));
    hear(u, QUIET, PRESENT);
    EXPECT(refuses(set, INTERLEAVER_FINITE));
    for (i = 0; i < sizeof high; i++) {
        present[t] = high[i];
        EXPECT(refuses(set, INTERLEAVER_PRESENCE));
    }
    EXPECT(add_with(set, length) == INTERLEAVER_OUTPUT && same());
    length[1]--;
    EXPECT(add_with(set, length) == INTERLEAVER_INPUT && same());
    all(set, ONE, 1, QUIET, ABSENT); /* a presence byte above 1 alone, at a blank's value */
    for (i = 0; i < sizeof high; i++) {
        present[t] = high[i];
        EXPECT(refuses(set, INTERLEAVER_PRESENCE));
    }
}

/* what isn't finite, at place t: as a value, as a stored sum, each where the other is present, blank or without a count */
static void not_finite(interleaver_set set, const uint16_t *l, uint32_t t) {
    unsigned i;
    for (i = 0; i < SPOILT; i++) {
        uint32_t k = l[t], bad = spoilt[i];
        all(set, FIVE, 0, TWO, ABSENT);
        hear(t, bad, PRESENT);
        EXPECT(refuses(set, INTERLEAVER_FINITE));
        hold(k, ONE, 1);
        EXPECT(refuses(set, INTERLEAVER_FINITE));
        hold(k, bad, 1);
        EXPECT(refuses(set, INTERLEAVER_FINITE));
        hear(t, TWO, PRESENT);
        EXPECT(refuses(set, INTERLEAVER_FINITE));
        hear(t, TWO, ABSENT);
        EXPECT(refuses(set, INTERLEAVER_FINITE));
        hold(k, bad, FULL);
        EXPECT(refuses(set, INTERLEAVER_FINITE));
        hold(k, bad, 0);
        EXPECT(add(set) == INTERLEAVER_DONE && same());
        hear(t, bad, ABSENT);
        EXPECT(add(set) == INTERLEAVER_DONE && same());
        hold(k, ONE, 1);
        EXPECT(add(set) == INTERLEAVER_DONE && same());
        hold(k, bad, 0);
        hear(t, TWO, PRESENT);
        EXPECT(adds(set, k, TWO, 1));
    }
}

/* a sum that would pass the largest float, at place t; a blank's value is not added */
static void too_large(interleaver_set set, const uint16_t *l, uint32_t t) {
    static const struct {
        uint32_t sum, value;
    } past[] = {{0x7f7fffffu, 0x7f7fffffu}, {0xff7fffffu, 0xff7fffffu}, {0x7f7fffffu, 0x73000000u}};
    uint32_t k = l[t];
    unsigned i;
    for (i = 0; i < sizeof past / sizeof past[0]; i++) {
        all(set, FIVE, 3, ONE, PRESENT);
        hold(k, past[i].sum, 1);
        hear(t, past[i].value, PRESENT);
        EXPECT(refuses(set, INTERLEAVER_FINITE));
        hear(t, past[i].value, ABSENT);
        EXPECT(add(set) == INTERLEAVER_DONE && holds(k, past[i].sum, 1));
    }
}

/* the last count there is, at place t */
static void full_counts(interleaver_set set, const uint16_t *l, uint32_t t) {
    uint32_t k = l[t];
    all(set, ONE, FULL, QUIET, ABSENT);
    EXPECT(add(set) == INTERLEAVER_DONE && same());
    hold(k, ONE, FULL - 2);
    hear(t, ONE, PRESENT);
    EXPECT(adds(set, k, TWO, FULL - 1));
    EXPECT(adds(set, k, 0x40400000u, FULL));
    EXPECT(refuses(set, INTERLEAVER_COUNT));
    hear(t, 0, PRESENT); /* zero is a value */
    EXPECT(refuses(set, INTERLEAVER_COUNT));
    hear(t, ONE, ABSENT);
    EXPECT(add(set) == INTERLEAVER_DONE && same());
}

/* a position that is past the block, and lengths: a refused reading leaves both out-parameters alone */
static void refused_readings(interleaver_set set, uint32_t k) {
    uint32_t sum = TWO;
    uint16_t count = 9;
    float x = 2;
    size_t n = set.n;
    unsigned i;
    all(set, FIVE, 3, ONE, PRESENT);
    memcpy(&kept, &now, sizeof now);
    EXPECT(read_at(set, set.n, &sum, &count) == INTERLEAVER_POSITION && read_at(set, 4294967295u, &sum, &count) == INTERLEAVER_POSITION);
    for (i = 0; i < 2; i++) {
        size_t off = n - 1 + 2 * i;
        EXPECT(interleaver_read_sum(&set, now.sums, off, now.counts, n, k, &x, &count) == INTERLEAVER_OUTPUT);
        EXPECT(interleaver_read_sum(&set, now.sums, n, now.counts, off, k, &x, &count) == INTERLEAVER_OUTPUT);
        EXPECT(interleaver_read_sum(&set, now.sums, off, now.counts, off, k, &x, &count) == INTERLEAVER_OUTPUT);
        EXPECT(interleaver_read_sum(&set, now.sums, off, now.counts, n, set.n, &x, &count) == INTERLEAVER_POSITION);
        EXPECT(interleaver_read_sum(&set, now.sums, n, now.counts, off, set.n, &x, &count) == INTERLEAVER_POSITION);
    }
    EXPECT(sum == TWO && count == 9 && bits_of(&x) == TWO && same());
}

void sums_refused(interleaver_set set, const uint16_t *l) {
    uint32_t places[3] = {0, set.n / 2, set.n - 1};
    unsigned j;
    lengths(set);
    order(set, l, 0, set.n - 1);
    order(set, l, set.n - 1, 0);
    for (j = 0; j < 3; j++) {
        order(set, l, places[j], places[j]);
        not_finite(set, l, places[j]);
        too_large(set, l, places[j]);
        full_counts(set, l, places[j]);
        refused_readings(set, places[j]);
    }
}

/* sets that are refused: before every other fault of the call. Profile 9 has no receptions, and is 1 */
void sums_of_refused_sets(void) {
    static const interleaver_set shape = SET(3, 4, 192, 1);
    size_t length[4] = {192, 192, 192, 192}, off[4] = {7, 8, 9, 10};
    uint16_t count = 9;
    float x = 2;
    unsigned i;
    for (i = 0; i < REFUSED; i++) {
        interleaver_set set = refused[i].set;
        uint32_t number = receives(set.profile) ? refused[i].number : 1;
        all(shape, ONE, 1, ONE, PRESENT);
        EXPECT(add_with(set, length) == number && same());
        hear(0, QUIET, 2);
        hold(1, ONE, FULL);
        EXPECT(add_with(set, length) == number && same());
        EXPECT(add_with(set, off) == number && same());
        EXPECT(interleaver_read_sum(&set, now.sums, 192, now.counts, 192, 0, &x, &count) == number);
        EXPECT(interleaver_read_sum(&set, now.sums, 7, now.counts, 8, 4294967295u, &x, &count) == number);
    }
    EXPECT(bits_of(&x) == TWO && count == 9);
}
