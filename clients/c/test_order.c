/* The order of refusals in every call on a set: those of the set, 1, 2, 3, 16, 11, 10, then the call's own. Nothing that is lent is changed. And every
   K of profile 5, whose search for q is to end. */
#include "test.h"

#define FAR 4294967295u
enum { LONG = 648, WIDTH = 3 };
static struct lent {
    uint32_t address, cell, past, written, cells;
    uint16_t list[LONG], count;
    uint8_t bytes[WIDTH * LONG];
    float soft[LONG], sum;
} lent, before;
static const uint8_t src[WIDTH * LONG];
static const float soft[LONG];

/* the set's number, or where the set is accepted that of the call's own fault */
static uint32_t first(uint32_t number, uint32_t own) { return number != 0 ? number : own; }

/* positions and cells that are past the end. The walk for M refuses profiles 5, 8 and 9 with 1 */
static void places(interleaver_set set, uint32_t number) {
    uint32_t back = walks_m(set.profile) ? first(number, INTERLEAVER_RECORD) : 1;
    EXPECT(interleaver_test(&set) == number);
    EXPECT(interleaver_address_l(&set, set.n, &lent.address) == first(number, INTERLEAVER_POSITION));
    EXPECT(interleaver_address_m(&set, FAR, &lent.address) == first(number, INTERLEAVER_POSITION));
    EXPECT(interleaver_walk_l(&set, &lent.past, lent.list, LONG, &lent.written, &lent.cells) == first(number, INTERLEAVER_RECORD));
    EXPECT(interleaver_walk_m(&set, &lent.past, lent.list, LONG, &lent.written, &lent.cells) == back);
}

/* blocks whose input, or whose output, is one short */
static void lengths(interleaver_set set, size_t n, uint32_t number) {
    uint32_t five = first(number, INTERLEAVER_INPUT), six = first(number, INTERLEAVER_OUTPUT);
    EXPECT(interleaver_interleave_bytes(&set, src, n - 1, lent.bytes, n) == five);
    EXPECT(interleaver_interleave_bytes(&set, src, n, lent.bytes, n - 1) == six);
    EXPECT(interleaver_deinterleave_bytes(&set, src, n - 1, lent.bytes, n) == five);
    EXPECT(interleaver_deinterleave_bytes(&set, src, n, lent.bytes, n - 1) == six);
    EXPECT(interleaver_interleave_soft(&set, soft, n - 1, lent.soft, n) == five);
    EXPECT(interleaver_interleave_soft(&set, soft, n, lent.soft, n - 1) == six);
    EXPECT(interleaver_deinterleave_soft(&set, soft, n - 1, lent.soft, n) == five);
    EXPECT(interleaver_deinterleave_soft(&set, soft, n, lent.soft, n - 1) == six);
    EXPECT(interleaver_interleave_symbols(&set, WIDTH, src, WIDTH * n - 1, lent.bytes, WIDTH * n) == five);
    EXPECT(interleaver_interleave_symbols(&set, WIDTH, src, WIDTH * n, lent.bytes, WIDTH * n - 1) == six);
    EXPECT(interleaver_deinterleave_symbols(&set, WIDTH, src, WIDTH * n - 1, lent.bytes, WIDTH * n) == five);
    EXPECT(interleaver_deinterleave_symbols(&set, WIDTH, src, WIDTH * n, lent.bytes, WIDTH * n - 1) == six);
}

/* what receptions of a set that is refused so say: 1 of profile 9 */
static uint32_t heard(interleaver_set set, uint32_t number) { return receives(set.profile) ? number : 1; }

/* receptions of an accepted set's shape, one fault upon the other: 15, 13, 14, 6, 5; and readings */
static void receptions(interleaver_set set, interleaver_set shape, uint32_t number) {
    size_t n = shape.n, length[4] = {n, n, n, n};
    number = heard(set, number);
    all(shape, ONE, FULL, ONE, PRESENT);
    EXPECT(add_with(set, length) == first(number, INTERLEAVER_COUNT) && same());
    hear(1, QUIET, PRESENT);
    EXPECT(add_with(set, length) == first(number, INTERLEAVER_FINITE) && same());
    hear(2, ONE, 2);
    EXPECT(add_with(set, length) == first(number, INTERLEAVER_PRESENCE) && same());
    length[2] = n - 1;
    EXPECT(add_with(set, length) == first(number, INTERLEAVER_OUTPUT) && same());
    length[1] = n - 1;
    EXPECT(add_with(set, length) == first(number, INTERLEAVER_INPUT) && same());
    EXPECT(interleaver_read_sum(&set, now.sums, n, now.counts, n - 1, 0, &lent.sum, &lent.count) == first(number, INTERLEAVER_OUTPUT));
    EXPECT(interleaver_read_sum(&set, now.sums, n, now.counts, n - 1, FAR, &lent.sum, &lent.count) == first(number, INTERLEAVER_POSITION));
}

/* a refused set in calls that have no other fault */
static void alone(interleaver_set set, interleaver_set shape, uint32_t number) {
    uint32_t back = walks_m(set.profile) ? number : 1;
    size_t n = interleaver_symbols(&shape), length[4] = {n, n, n, n};
    EXPECT(interleaver_address_l(&set, 0, &lent.address) == number);
    EXPECT(interleaver_address_m(&set, 0, &lent.address) == number);
    EXPECT(interleaver_walk_l(&set, &lent.cell, lent.list, n, &lent.written, &lent.cells) == number);
    EXPECT(interleaver_walk_m(&set, &lent.cell, lent.list, n, &lent.written, &lent.cells) == back);
    EXPECT(interleaver_interleave_bytes(&set, src, n, lent.bytes, n) == number);
    EXPECT(interleaver_deinterleave_bytes(&set, src, n, lent.bytes, n) == number);
    EXPECT(interleaver_interleave_soft(&set, soft, n, lent.soft, n) == number);
    EXPECT(interleaver_deinterleave_soft(&set, soft, n, lent.soft, n) == number);
    EXPECT(interleaver_interleave_symbols(&set, WIDTH, src, WIDTH * n, lent.bytes, WIDTH * n) == number);
    EXPECT(interleaver_deinterleave_symbols(&set, WIDTH, src, WIDTH * n, lent.bytes, WIDTH * n) == number);
    all(shape, ONE, 1, ONE, PRESENT);
    EXPECT(add_with(set, length) == heard(set, number) && same());
    EXPECT(interleaver_read_sum(&set, now.sums, n, now.counts, n, 0, &lent.sum, &lent.count) == heard(set, number));
}

static void every_call(interleaver_set set, interleaver_set shape, uint32_t number) {
    memset(&lent, 0xa5, sizeof lent);
    lent.cell = 0, lent.past = FAR;
    memcpy(&before, &lent, sizeof lent);
    places(set, number);
    lengths(set, interleaver_symbols(&shape), number);
    receptions(set, shape, number);
    if (number != INTERLEAVER_DONE)
        alone(set, shape, number);
    EXPECT(memcmp(&lent, &before, sizeof lent) == 0);
}

/* a set's fault with those before it put upon it one by one: 3, 2, 1 */
static void upwards(interleaver_set set, interleaver_set shape, uint32_t number, uint32_t profile) {
    every_call(set, shape, number);
    set.n = 7;
    every_call(set, shape, INTERLEAVER_SIZE);
    set.bits = 3;
    every_call(set, shape, INTERLEAVER_BITS);
    set.profile = profile;
    every_call(set, shape, INTERLEAVER_PROFILE);
}

/* every K of profile 5: a walk with no room sets up, searching for its numbers q, and is done; every other call says its own fault, or reads. For K
   4,681 to 4,800 the search goes furthest */
static void every_search(void) {
    static uint8_t in[MAX], out[MAX];
    static float sums[MAX];
    static uint16_t counts[MAX];
    interleaver_set set = SET(5, 1, 0, 1);
    uint32_t address, cell, written, cells;
    float sum;
    uint16_t count;
    memset(in, 1, sizeof in);
    for (set.n = 40; set.n <= 5114; set.n++) {
        cell = 0;
        EXPECT(interleaver_walk_l(&set, &cell, lent.list, 0, &written, &cells) == INTERLEAVER_DONE && cell == 0 && written == 0 && cells == 0);
        cell = set.n + 240; /* the padding is 239 cells at the most */
        EXPECT(interleaver_walk_l(&set, &cell, lent.list, LONG, &written, &cells) == INTERLEAVER_RECORD && cell == set.n + 240);
        EXPECT(interleaver_address_l(&set, set.n, &address) == INTERLEAVER_POSITION);
        EXPECT(interleaver_address_m(&set, set.n, &address) == INTERLEAVER_POSITION);
        EXPECT(interleaver_interleave_bytes(&set, in, set.n - 1, out, set.n) == INTERLEAVER_INPUT);
        EXPECT(interleaver_deinterleave_bytes(&set, in, set.n, out, set.n - 1) == INTERLEAVER_OUTPUT);
        EXPECT(interleaver_read_sum(&set, sums, set.n, counts, set.n, set.n - 1, &sum, &count) == INTERLEAVER_DONE && count == 0);
    }
    EXPECT(all_bytes(out, MAX, 0));
}

void order_of_refusals(void) {
    static const interleaver_set shapes[] = {SET(1, 6, 72, 1), SET(2, 2, 96, 1), SET(3, 4, 192, 1), SET(4, 4, 64, 1), SET(5, 1, 40, 1),
        SET(6, 1, 52, 1), SET(6, 4, 208, 2), SET(7, 2, 216, 3), SET(7, 6, 648, 4), LTE(40, 3, 10), WIMAX(24, 5, 0, 0, 0)};
    static const uint32_t streams_tried[] = {2, 3, 4, 0, 5, 6, 257, 65537, 2147483649u, FAR};
    static const struct {
        uint32_t factors[4], lte, wimax; /* and what they are refused with, of profiles 8 and 9 */
    } factors_tried[] = {{{0, 10, 0, 0}, 11, 10}, {{3, 0, 0, 0}, 11, 10}, {{40, 10, 0, 0}, 11, 11}, {{3, 40, 0, 0}, 11, 11}, {{2, FAR, 0, 0}, 11, 11},
        {{FAR, 8, 0, 0}, 11, 11}, {{3, 8, 0, 0}, 10, 10}, {{5, 10, 0, 0}, 10, 10}, {{2, 10, 0, 0}, 10, 10}, {{5, 0, 24, 0}, 11, 11},
        {{5, 0, 0, FAR}, 11, 11}, {{3, 10, FAR, FAR}, 0, 11}, {{5, 0, 0, 1}, 11, 10}, {{23, 23, 23, 22}, 10, 0}};
    unsigned i, j;
    for (i = 0; i < sizeof shapes / sizeof shapes[0]; i++) {
        interleaver_set shape = shapes[i];
        int spatial = shape.profile == 6 || shape.profile == 7;
        every_call(shape, shape, INTERLEAVER_DONE);
        for (j = 0; j < sizeof streams_tried / sizeof streams_tried[0]; j++) {
            interleaver_set set = shape;
            set.stream = streams_tried[j];
            upwards(set, shape, j < 3 && spatial ? INTERLEAVER_DONE : INTERLEAVER_STREAM, j % 2 == 0 ? 10 : 0);
        }
        for (j = 0; j < sizeof factors_tried / sizeof factors_tried[0]; j++) {
            interleaver_set set = shape;
            uint32_t number = shape.profile == 8 ? factors_tried[j].lte : shape.profile == 9 ? factors_tried[j].wimax : INTERLEAVER_DONE;
            memcpy(set.factors, factors_tried[j].factors, sizeof set.factors);
            every_call(set, shape, number);
            set.stream = 5;
            upwards(set, shape, INTERLEAVER_STREAM, 10);
        }
    }
    every_search();
}
