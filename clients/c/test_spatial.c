/* Profiles 6 and 7, every set: addresses, walks and blocks beside the formula, which is worked out by division. Walks are cut in two at every place,
   and in three around the seam, the place t where t and the stream's turn make N. */
#include "test.h"

enum { LONGEST = 648, NEAR = 7 };

/* how far the stream turns a block */
static uint32_t turn_of(interleaver_set set) {
    uint32_t i = set.stream - 1;
    return (2 * i % 3 + 3 * (i / 3)) * (set.profile == 6 ? 11 : 29) * set.bits;
}

/* M(k) */
static uint32_t formula(interleaver_set set, uint32_t k) {
    uint32_t n = set.n, d = set.profile == 6 ? 13 : 18, s = set.bits < 4 ? 1 : set.bits / 2;
    uint32_t i = n / d * (k % d) + k / d, j = s * (i / s) + (i + n - d * i / n) % s;
    return (j + n - turn_of(set)) % n;
}

/* whether a walk with room from one place up to another, which may be past the end, is as the list, and leaves what is behind it alone */
static int goes(walk *go, interleaver_set set, const uint16_t *list, uint32_t from, uint32_t to) {
    static uint16_t out[LONGEST + 2 * NEAR];
    uint32_t end = to < set.n ? to : set.n, count = end - from, cell = from, written = 9, cells = 9;
    memset(out, 0xee, 2 * (to - from + NEAR));
    return go(&set, &cell, out, to - from, &written, &cells) == INTERLEAVER_DONE && cell == end && written == count && cells == count &&
           memcmp(out, list + from, 2 * count) == 0 && all_addresses(out + count, to - end + NEAR, 0xeeee);
}

static unsigned wrong_cuts(walk *go, interleaver_set set, const uint16_t *list) {
    uint32_t seam = set.n - turn_of(set), last = seam + NEAR < set.n ? seam + NEAR : set.n, from, to;
    unsigned wrong = 0;
    for (to = 0; to <= set.n; to++)
        wrong += !goes(go, set, list, 0, to) + !goes(go, set, list, to, set.n) + !goes(go, set, list, to, set.n + NEAR);
    for (from = seam - NEAR; from <= last; from++)
        for (to = from; to <= seam + NEAR; to++)
            wrong += !goes(go, set, list, from, to);
    return wrong;
}

/* input k goes to output M(k), and comes back */
static void blocks(interleaver_set set, const uint16_t *m) {
    static uint8_t src[LONGEST], dst[LONGEST], back[LONGEST];
    static float soft[LONGEST], sent[LONGEST], received[LONGEST];
    size_t n = set.n;
    unsigned k, wrong = 0;
    for (k = 0; k < n; k++) {
        uint32_t pattern = (k + 1) * 2654435761u;
        src[k] = byte_of(k);
        memcpy(soft + k, &pattern, sizeof pattern);
    }
    EXPECT(interleaver_interleave_bytes(&set, src, n, dst, n) == INTERLEAVER_DONE);
    EXPECT(interleaver_interleave_soft(&set, soft, n, sent, n) == INTERLEAVER_DONE);
    for (k = 0; k < n; k++)
        wrong += (dst[m[k]] != src[k]) + (bits_of(sent + m[k]) != bits_of(soft + k));
    EXPECT(wrong == 0);
    EXPECT(interleaver_deinterleave_bytes(&set, dst, n, back, n) == INTERLEAVER_DONE && memcmp(back, src, n) == 0);
    EXPECT(interleaver_deinterleave_soft(&set, sent, n, received, n) == INTERLEAVER_DONE && memcmp(received, soft, n * sizeof soft[0]) == 0);
}

void spatial(void) {
    static uint16_t l[LONGEST], m[LONGEST];
    unsigned i, k, wrong;
    for (i = SPATIAL; i < SETS; i++) {
        interleaver_set set = accepted[i];
        for (k = 0; k < set.n; k++) {
            m[k] = (uint16_t)formula(set, k);
            l[m[k]] = (uint16_t)k;
        }
        for (wrong = 0, k = 0; k < set.n; k++)
            wrong += (at_l(set, k) != l[k]) + (at_m(set, k) != m[k]);
        EXPECT(wrong == 0);
        EXPECT(wrong_cuts(interleaver_walk_l, set, l) == 0);
        EXPECT(wrong_cuts(interleaver_walk_m, set, m) == 0);
        blocks(set, m);
    }
}
