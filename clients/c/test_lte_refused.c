/* What profile 8 refuses: factors, by 11 and 10, beside all positions tried; the walk for M. And factors that are not read. test_order.c has the
   refusals in every call. */
#include "test.h"

#define FAR 4294967295u

/* whether no two positions have one address, by trying them all */
static int apart(interleaver_set set) {
    static uint8_t seen[MAX];
    uint32_t t;
    memset(seen, 0, set.n);
    for (t = 0; t < set.n; t++)
        if (seen[quadratic(set, t)]++ != 0)
            return 0;
    return 1;
}

static uint32_t verdict(interleaver_set set) {
    if (set.factors[0] == 0 || set.factors[0] >= set.n || set.factors[1] == 0 || set.factors[1] >= set.n)
        return INTERLEAVER_FACTORS;
    return apart(set) ? INTERLEAVER_DONE : INTERLEAVER_SHARED;
}

/* every f1 and f2 from 0 to k; and how many pairs are accepted */
static void every_pair(uint32_t k, unsigned pairs) {
    uint32_t f1, f2;
    unsigned wrong = 0, fit = 0;
    for (f1 = 0; f1 <= k; f1++)
        for (f2 = 0; f2 <= k; f2++) {
            interleaver_set set = interleaver_set_lte(k, f1, f2);
            uint32_t want = verdict(set);
            wrong += interleaver_test(&set) != want;
            fit += want == INTERLEAVER_DONE;
        }
    EXPECT(wrong == 0);
    EXPECT(fit == pairs);
}

/* every size with pairs of any kind, and with the least that has a chance: 1, and a product of k's primes or nearly one */
static void every_size(void) {
    static const uint32_t products[] = {2, 4, 6, 10, 14, 22, 26, 30, 34, 38, 42, 46, 58, 62, 66, 70, 74, 78, 82, 86, 94};
    uint32_t k, x = 1;
    unsigned i, wrong = 0, fit = 0, unfit = 0;
    for (k = 40; k <= 6144; k = next_k(k))
        for (i = 0; i < 2 * sizeof products / sizeof products[0]; i++) {
            uint32_t f1 = (x = x * 1664525u + 1013904223u) % (k + 1), f2 = products[i / 2] * (i % 2 == 0 ? 1 : (x >> 16) % 50);
            interleaver_set set = interleaver_set_lte(k, i % 2 == 0 ? 1 : f1, f2);
            uint32_t want = verdict(set);
            wrong += interleaver_test(&set) != want;
            fit += want == INTERLEAVER_DONE;
            unfit += want == INTERLEAVER_SHARED;
        }
    EXPECT(wrong == 0);
    EXPECT(fit > 500 && unfit > 500);
}

/* numbers of a set of K 40: 11 before 10, 16 before both, 3 before that */
static void numbers(void) {
    static const struct {
        uint32_t n, stream, f1, f2, number;
    } known[] = {{40, 1, 3, 10, 0}, {40, 1, 0, 10, 11}, {40, 1, 3, 0, 11}, {40, 1, 0, 0, 11}, {40, 1, 40, 10, 11}, {40, 1, 3, 40, 11},
        {40, 1, 41, 10, 11}, {40, 1, FAR, 10, 11}, {40, 1, 3, FAR, 11}, {40, 1, FAR, FAR, 11}, {40, 1, 65539, 10, 11}, {40, 1, 3, 65546, 11},
        {40, 1, 3, 8, 10}, {40, 1, 5, 10, 10}, {40, 1, 2, 10, 10}, {40, 1, 0, 8, 11}, {40, 1, 5, 0, 11}, {40, 1, 2, 40, 11}, {40, 1, 40, 8, 11},
        {40, 2, 3, 10, 16}, {40, 2, 0, 10, 16}, {40, 0, 3, FAR, 16}, {40, 2, 3, 8, 16}, {40, FAR, FAR, FAR, 16}, {41, 2, 3, 10, 3},
        {41, 2, 0, 0, 3}, {39, 0, 3, 8, 3}, {520, 1, 3, 10, 3}, {6152, 1, 0, 10, 3}, {0, 1, 0, 0, 3}, {FAR, 1, 3, 10, 3}};
    unsigned i;
    for (i = 0; i < sizeof known / sizeof known[0]; i++) {
        interleaver_set set = interleaver_set_lte(known[i].n, known[i].f1, known[i].f2);
        EXPECT(set.profile == 8 && set.bits == 1 && set.stream == 1 && set.factors[2] == 0 && set.factors[3] == 0);
        set.stream = known[i].stream;
        EXPECT(interleaver_test(&set) == known[i].number);
    }
}

/* the walk for M: before every other fault */
static void no_walk(void) {
    static const interleaver_set sets[] = {LTE(40, 3, 10), LTE(6144, 263, 480), {8, 2, 40, 1, {3, 10, 0, 0}}, LTE(41, 3, 10),
        {8, 1, 40, 2, {3, 10, 0, 0}}, LTE(40, 0, 10), LTE(40, 3, 8)};
    unsigned i;
    for (i = 0; i < sizeof sets / sizeof sets[0]; i++)
        no_walk_m(sets[i]);
}

/* whether two sets give one list of a walk, and end at one cell */
static int alike(walk *go, interleaver_set one, interleaver_set other) {
    static uint16_t list[MAX], again[MAX];
    uint32_t cell = 0, end = 0, written = 0, times = 0, cells = 0, passed = 0;
    memset(list, 1, sizeof list);
    memset(again, 2, sizeof again);
    return go(&one, &cell, list, one.n, &written, &cells) == INTERLEAVER_DONE &&
           go(&other, &end, again, one.n, &times, &passed) == INTERLEAVER_DONE && cell == end && written == one.n && times == written &&
           cells == passed && memcmp(list, again, 2 * one.n) == 0;
}

/* profile 9 reads all four factors, profile 8 the first two, and no other profile any */
static unsigned read_of(uint32_t profile) { return profile == 9 ? 4 : profile == 8 ? 2 : 0; }

static void not_read(void) {
    unsigned i, j;
    for (i = 0; i < SETS; i++) {
        interleaver_set set = accepted[i];
        for (j = read_of(set.profile); j < 4; j++)
            set.factors[j] = FAR;
        EXPECT(interleaver_test(&set) == INTERLEAVER_DONE);
        EXPECT(at_l(set, 1) == at_l(accepted[i], 1) && at_m(set, 1) == at_m(accepted[i], 1));
        EXPECT(alike(interleaver_walk_l, accepted[i], set));
        EXPECT(!walks_m(set.profile) || alike(interleaver_walk_m, accepted[i], set));
    }
    for (i = 0; i < REFUSED; i++) {
        interleaver_set set = refused[i].set;
        for (j = read_of(set.profile); j < 4; j++)
            set.factors[j] = FAR;
        EXPECT(interleaver_test(&set) == refused[i].number);
    }
}

void lte_refused(void) {
    every_pair(40, 48);
    every_pair(48, 112);
    every_pair(56, 72);
    every_pair(64, 992);
    every_pair(72, 264);
    every_pair(200, 1520);
    every_size();
    numbers();
    no_walk();
    not_read();
}
