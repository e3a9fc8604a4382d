/* The size that refusal 3 carries, beside the lists of sizes written out from document 01 and requests 4, 6 and 12: every size up to 7,000, and some that
   are far larger, of every profile and bits that are listed and of some that aren't. */
#include "test.h"

enum { TRIED = 7000, SIZES = 5114 };
#define FAR 4294967295u

static int among(uint32_t x, uint32_t a, uint32_t b, uint32_t c, uint32_t d) { return x == a || x == b || x == c || x == d; }

/* the numbers from first to last by a step, and how many they are */
static unsigned steps(uint32_t *sizes, uint32_t first, uint32_t last, uint32_t step) {
    unsigned count = 0;
    for (; first <= last; first += step)
        sizes[count++] = first;
    return count;
}

/* the listed sizes of a profile and bits, rising, and how many they are */
static unsigned list(uint32_t profile, uint32_t bits, uint32_t *sizes) {
    uint32_t group = bits < 4 ? 1 : bits / 2, n;
    unsigned count = 0;
    if (profile == 5 || profile == 8 || profile == 9 ? bits != 1 : !among(bits, profile == 2 ? 2 : 1, 2, 4, 6))
        return 0;
    switch (profile) {
    case 1:
        for (n = 12 * bits; n <= 16 * 12 * bits; n *= 2)
            sizes[count++] = n;
        return count;
    case 2:
        return steps(sizes, 48 * bits, 576, 48 * bits);
    case 3:
        return steps(sizes, 48 * bits, 48 * bits, 1);
    case 4:
        return steps(sizes, 16 * group, 1536, 16 * group);
    case 5:
        return steps(sizes, 40, 5114, 1);
    case 6:
        return steps(sizes, 52 * bits, 52 * bits, 1);
    case 7:
        return steps(sizes, 108 * bits, 108 * bits, 1);
    case 8:
        for (n = 40; n <= 6144; n = next_k(n))
            sizes[count++] = n;
        return count;
    case 9:
        return steps(sizes, 24, 2400, 4);
    }
    return 0;
}

/* one size: next is the place of the first listed one that is not below it. Factors of 0 are refused by profiles 8 and 9, each in its own way */
static int right(interleaver_set set, const uint32_t *sizes, unsigned count, unsigned next) {
    uint32_t number = interleaver_test(&set), fitting = interleaver_fitting(&set);
    if (count == 0)
        return number < INTERLEAVER_SIZE && number != INTERLEAVER_DONE && fitting == 0;
    if (next < count && sizes[next] == set.n)
        return number == (set.profile == 8 ? INTERLEAVER_FACTORS : set.profile == 9 ? INTERLEAVER_SHARED : INTERLEAVER_DONE) && fitting == 0;
    return number == INTERLEAVER_SIZE && fitting == (next < count ? sizes[next] : 0);
}

static unsigned of_bits(uint32_t profile, uint32_t bits) {
    static const uint32_t far[] = {65535, 65536, 65576, 2147483648u, 4294967200u, FAR};
    static uint32_t sizes[SIZES];
    unsigned count = list(profile, bits, sizes), next = 0, wrong = 0, i;
    interleaver_set set = SET(profile, bits, 0, 1);
    for (set.n = 0; set.n <= TRIED; set.n++) {
        while (next < count && sizes[next] < set.n)
            next++;
        wrong += !right(set, sizes, count, next);
    }
    for (i = 0; i < sizeof far / sizeof far[0]; i++) {
        set.n = far[i];
        wrong += !right(set, sizes, count, count);
    }
    return wrong;
}

void fitting(void) {
    static const uint32_t bits[] = {0, 1, 2, 3, 4, 5, 6, 7, 8, 65537, 2147483649u, FAR};
    static const struct {
        interleaver_set set;
        uint32_t fitting;
    } known[] = {{SET(3, 4, 100, 1), 192}, {SET(3, 4, 193, 1), 0}, {SET(3, 4, 192, 1), 0}, {SET(2, 4, 577, 1), 0}, {SET(2, 6, 1, 1), 288},
        {SET(5, 1, 39, 1), 40}, {SET(8, 1, 513, 1), 528}, {SET(8, 1, 6145, 1), 0}, {SET(3, 4, 100, 9), 192}, {SET(3, 4, 192, 9), 0},
        {SET(3, 3, 100, 1), 0}, {SET(10, 4, 100, 1), 0}, {LTE(40, 0, 10), 0}, {LTE(40, 3, 8), 0}, {LTE(41, 0, 0), 48},
        {WIMAX(20, 5, 0, 0, 0), 24}, {WIMAX(26, 5, 0, 0, 0), 28}, {WIMAX(26, FAR, 0, 0, 0), 28}, {WIMAX(2399, 5, 0, 0, 0), 2400},
        {WIMAX(2404, 5, 0, 0, 0), 0}, {WIMAX(24, 5, 1, 0, 0), 0}, {WIMAX(24, 24, 0, 0, 0), 0}, {SET(9, 2, 26, 1), 0}};
    interleaver_set five = SET(5, 1, 39, 1);
    uint32_t profile, factors[4] = {7, 7, 7, 7}, cell = 0, written, cells;
    uint16_t list_of[3];
    unsigned i;
    for (profile = 0; profile <= 11; profile++)
        for (i = 0; i < sizeof bits / sizeof bits[0]; i++)
            EXPECT(of_bits(profile < 11 ? profile : FAR, bits[i]) == 0);
    for (i = 0; i < sizeof known / sizeof known[0]; i++)
        EXPECT(interleaver_fitting(&known[i].set) == known[i].fitting);
    for (i = 0; i < SETS; i++)
        EXPECT(interleaver_fitting(&accepted[i]) == 0);
    for (i = 0; i < REFUSED; i++)
        EXPECT(refused[i].number == INTERLEAVER_SIZE || interleaver_fitting(&refused[i].set) == 0);
    /* the walk for M of profile 5 says 1 before the test's 3; a K of profile 8 asks with its set */
    EXPECT(interleaver_walk_m(&five, &cell, list_of, 3, &written, &cells) == INTERLEAVER_PROFILE && interleaver_fitting(&five) == 40);
    EXPECT(interleaver_lte_factors(6100, factors) == INTERLEAVER_SIZE && factors[0] == 7);
    EXPECT(interleaver_fitting(&(interleaver_set)SET(8, 1, 6100, 1)) == 6144);
}
