/* Repeated receptions added up, and read back. Floats are compared by their bits. test_sums_refused.c has what is refused. */
#include "test.h"

struct stored now, kept;
static float received[MAX + 1];
uint8_t present[MAX + 1];
static uint16_t l[MAX];

const uint32_t spoilt[SPOILT] = {0x7f800001u, 0x7fbfffffu, 0xff800001u, 0xffbfffffu, 0x7fc00000u, 0x7fffffffu, 0xffc00000u, 0xffffffffu,
    0x7f800000u, 0xff800000u};

uint32_t bits_of(const float *x) {
    uint32_t bits;
    memcpy(&bits, x, sizeof bits);
    return bits;
}

static uint32_t bits_in_eighths(int eighths) {
    float x = (float)eighths / 8;
    return bits_of(&x);
}

void hold(uint32_t k, uint32_t sum, uint16_t count) {
    memcpy(now.sums + k, &sum, sizeof sum);
    now.counts[k] = count;
}

void hear(uint32_t t, uint32_t value, uint8_t there) {
    memcpy(received + t, &value, sizeof value);
    present[t] = there;
}

int holds(uint32_t k, uint32_t sum, uint16_t count) { return bits_of(now.sums + k) == sum && now.counts[k] == count; }

void all(interleaver_set set, uint32_t sum, uint16_t count, uint32_t value, uint8_t there) {
    uint32_t i;
    memset(&now, 0xa5, sizeof now);
    for (i = 0; i < set.n; i++) {
        hold(i, sum, count);
        hear(i, value, there);
    }
}

uint32_t add_with(interleaver_set set, const size_t *length) {
    memcpy(&kept, &now, sizeof now);
    return interleaver_add_received(&set, received, length[0], present, length[1], now.sums, length[2], now.counts, length[3]);
}

uint32_t add(interleaver_set set) {
    size_t length[4] = {set.n, set.n, set.n, set.n};
    return add_with(set, length);
}

int same(void) { return memcmp(&now, &kept, sizeof now) == 0; }

int adds(interleaver_set set, uint32_t k, uint32_t sum, uint16_t count) {
    if (add(set) != INTERLEAVER_DONE || !holds(k, sum, count))
        return 0;
    memcpy(kept.sums + k, now.sums + k, sizeof now.sums[0]);
    kept.counts[k] = now.counts[k];
    return same();
}

uint32_t read_at(interleaver_set set, uint32_t position, uint32_t *sum, uint16_t *count) {
    float x;
    uint32_t number;
    memcpy(&x, sum, sizeof x);
    number = interleaver_read_sum(&set, now.sums, set.n, now.counts, set.n, position, &x, count);
    *sum = bits_of(&x);
    return number;
}

static uint32_t total(uint32_t n) {
    uint32_t sum = 0;
    while (n > 0)
        sum += now.counts[--n];
    return sum;
}

/* three receptions beside a second computation, in whole eighths; a blank's value, and a sum of no value, are not-a-number */
static void receptions(interleaver_set set, uint32_t x) {
    static int eighths[MAX];
    static uint16_t heard[MAX];
    uint32_t round, t, k, wrong, values, before;
    all(set, QUIET, 0, QUIET, ABSENT);
    memset(eighths, 0, sizeof eighths);
    memset(heard, 0, sizeof heard);
    for (round = 0; round < 3; round++) {
        for (values = 0, t = 0; t < set.n; t++) {
            x = x * 1664525u + 1013904223u;
            if (x >> 30 == 0) {
                hear(t, spoilt[t % SPOILT], ABSENT);
            } else {
                int value = (int)(x >> 12 & 0xffff) - 0x8000;
                hear(t, bits_in_eighths(value), PRESENT);
                eighths[l[t]] += value;
                heard[l[t]]++;
                values++;
            }
        }
        before = total(set.n);
        EXPECT(add(set) == INTERLEAVER_DONE);
        EXPECT(total(set.n) == before + values);
        for (wrong = 0, k = 0; k < set.n; k++) {
            uint32_t want = heard[k] == 0 ? QUIET : bits_in_eighths(eighths[k]), sum = FIVE;
            uint16_t count = 9;
            wrong += !holds(k, want, heard[k]);
            wrong += read_at(set, k, &sum, &count) != INTERLEAVER_DONE || sum != (heard[k] == 0 ? FIVE : want) || count != heard[k];
        }
        EXPECT(wrong == 0);
        memcpy(kept.sums, now.sums, set.n * sizeof now.sums[0]);
        memcpy(kept.counts, now.counts, set.n * sizeof now.counts[0]);
        EXPECT(same()); /* the guards, and what is behind place n */
    }
}

/* a first value as it is, whatever the sum was; later ones with one rounding, to even */
static void values(interleaver_set set, uint32_t t) {
    static const uint32_t first[] = {TWO, 0, 0x80000000u, 0x00000001u, 0x807fffffu, 0x3e000000u, 0x7f7fffffu, 0xff7fffffu};
    static const struct {
        uint32_t sum, value, want;
    } later[] = {{ONE, ONE, TWO}, {ONE, 0xbf800000u, 0}, {0, 0x80000000u, 0},
        {0x80000000u, 0, 0}, {0x80000000u, 0x80000000u, 0x80000000u}, {0x00000001u, 0x00000001u, 0x00000002u},
        {0x00800000u, 0x80000001u, 0x007fffffu}, {ONE, 0x33800000u, ONE}, {ONE, 0x33800001u, 0x3f800001u},
        {0x49ffffffu, 0x3e000000u, 0x4a000000u}, {0x4a000000u, 0x3e000000u, 0x4a000000u}, /* 2,097,152, and an eighth more */
        {0x7f7fffffu, ONE, 0x7f7fffffu}, {0x7f7fffffu, 0x72ffffffu, 0x7f7fffffu}, {0x7f7fffffu, 0xff7fffffu, 0}};
    uint32_t k = l[t];
    unsigned i;
    for (i = 0; i < sizeof first / sizeof first[0]; i++) {
        all(set, FIVE, 0, QUIET, ABSENT);
        hear(t, first[i], PRESENT);
        EXPECT(adds(set, k, first[i], 1));
    }
    for (i = 0; i < sizeof later / sizeof later[0]; i++) {
        all(set, FIVE, 3, QUIET, ABSENT);
        hold(k, later[i].sum, 1);
        hear(t, later[i].value, PRESENT);
        EXPECT(adds(set, k, later[i].want, 2));
    }
}

/* 2,048 receptions up to magnitudes of 2,097,152, exact at each; then an eighth more, which is lost */
static void up_to_the_bound(interleaver_set set) {
    enum { ROUNDS = 2048, EACH = 8192 };
    static int eighths[MAX];
    uint32_t round, t, wrong = 0;
    all(set, QUIET, 0, QUIET, ABSENT);
    memset(eighths, 0, sizeof eighths);
    for (round = 0; round < ROUNDS; round++) {
        for (t = 0; t < set.n; t++) {
            int part = (int)((round / 2 * 37 + t) % EACH), value = round % 2 == 0 ? EACH - part : EACH + part;
            value = t % 2 == 0 ? value : -value;
            eighths[l[t]] += value;
            hear(t, bits_in_eighths(value), PRESENT);
        }
        wrong += add(set) != INTERLEAVER_DONE;
        for (t = 0; t < set.n; t++)
            wrong += !holds(l[t], bits_in_eighths(eighths[l[t]]), (uint16_t)(round + 1));
    }
    EXPECT(wrong == 0);
    for (t = 0; t < set.n; t++) {
        wrong += !holds(l[t], t % 2 == 0 ? 0x4a000000u : 0xca000000u, ROUNDS);
        hear(t, bits_in_eighths(t % 2 == 0 ? 1 : -1), PRESENT);
    }
    EXPECT(wrong == 0);
    EXPECT(add(set) == INTERLEAVER_DONE);
    for (t = 0; t < set.n; t++)
        wrong += !holds(l[t], t % 2 == 0 ? 0x4a000000u : 0xca000000u, ROUNDS + 1);
    EXPECT(wrong == 0);
}

/* a position read: a sum as it stands, finite or not; a blank */
static void readings(interleaver_set set, uint32_t k) {
    uint32_t sum = TWO;
    uint16_t count = 9;
    unsigned i;
    all(set, FIVE, 3, ONE, PRESENT);
    memcpy(&kept, &now, sizeof now);
    EXPECT(read_at(set, k, &sum, &count) == INTERLEAVER_DONE && sum == FIVE && count == 3 && same());
    for (i = 0; i < SPOILT; i++) {
        hold(k, spoilt[i], FULL);
        sum = TWO, count = 9;
        EXPECT(read_at(set, k, &sum, &count) == INTERLEAVER_DONE && sum == spoilt[i] && count == FULL);
        hold(k, ONE, 0);
        sum = spoilt[i];
        EXPECT(read_at(set, k, &sum, &count) == INTERLEAVER_DONE && sum == spoilt[i] && count == 0);
        hold(k, spoilt[i], 0);
        sum = TWO, count = 9;
        EXPECT(read_at(set, k, &sum, &count) == INTERLEAVER_DONE && sum == TWO && count == 0);
    }
    hold(k, 0x80000000u, 1);
    EXPECT(read_at(set, k, &sum, &count) == INTERLEAVER_DONE && sum == 0x80000000u && count == 1);
}

void sums(void) {
    unsigned i, j;
    for (i = 0; i < SETS; i++) {
        interleaver_set set = accepted[i];
        uint32_t cell = 0, written, cells, places[3] = {0, set.n / 2, set.n - 1};
        if (!receives(set.profile))
            continue;
        EXPECT(interleaver_walk_l(&set, &cell, l, set.n, &written, &cells) == INTERLEAVER_DONE);
        receptions(set, i);
        for (j = 0; j < 3; j++) {
            values(set, places[j]);
            readings(set, places[j]);
        }
        if (set.n <= 48)
            up_to_the_bound(set);
        sums_refused(set, l);
    }
    sums_of_refused_sets();
}
