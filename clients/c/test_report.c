/* The padding report: the figures of every K, and the totals of ranges, beside R, p and C worked out step by step as 3GPP TS 25.212 4.2.3.2.3.1 has
   them; what is known; and what is refused, and leaves what is lent alone. */
#include "test.h"

#define FAR 4294967295u
#define NONE 0xa5a5a5a5u
enum { WCDMA_MIN = 40, FIGURES = 5, TOTALS = 3 };

/* R, the least prime p with K in R rows of p + 1, and C, which is p - 1, p or p + 1; for K 481 to 530 p is 53, and C too */
static void reckon(uint32_t k, uint32_t *figures) {
    uint32_t own = k >= 481 && k <= 530, r = 20, p = 53, c = 53;
    if (k <= 159)
        r = 5;
    else if (k <= 200 || own)
        r = 10;
    if (!own) {
        for (p = 7; !prime(p) || k > r * (p + 1);)
            p++;
        c = k <= r * (p - 1) ? p - 1 : k <= r * p ? p : p + 1;
    }
    figures[0] = k;
    figures[1] = r;
    figures[2] = c;
    figures[3] = r * c;
    figures[4] = r * c - k;
}

/* whether the figures of a K are these, with nothing written around them */
static int gives(uint32_t k, const uint32_t *figures) {
    uint32_t lent[FIGURES + 2];
    memset(lent, 0xa5, sizeof lent);
    return interleaver_wcdma_figures(k, lent + 1) == INTERLEAVER_DONE && memcmp(lent + 1, figures, FIGURES * sizeof lent[0]) == 0 &&
           lent[0] == NONE && lent[FIGURES + 1] == NONE;
}

static int refuses(uint32_t k) {
    uint32_t lent[FIGURES + 2];
    memset(lent, 0xa5, sizeof lent);
    return interleaver_wcdma_figures(k, lent + 1) == INTERLEAVER_SIZE && all_bytes((const uint8_t *)lent, sizeof lent, 0xa5);
}

/* the same of a range */
static int sums_to(uint32_t first, uint32_t last, const uint32_t *totals) {
    uint32_t lent[TOTALS + 2];
    memset(lent, 0xa5, sizeof lent);
    return interleaver_wcdma_totals(first, last, lent + 1) == INTERLEAVER_DONE && memcmp(lent + 1, totals, TOTALS * sizeof lent[0]) == 0 &&
           lent[0] == NONE && lent[TOTALS + 1] == NONE;
}

static int refuses_range(uint32_t first, uint32_t last) {
    uint32_t lent[TOTALS + 2];
    memset(lent, 0xa5, sizeof lent);
    return interleaver_wcdma_totals(first, last, lent + 1) == INTERLEAVER_SIZE && all_bytes((const uint8_t *)lent, sizeof lent, 0xa5);
}

/* every K, and what is no K */
static void figures(void) {
    static const uint32_t known[][FIGURES] = {{40, 5, 8, 40, 0}, {41, 5, 10, 50, 9}, {480, 20, 24, 480, 0}, {481, 10, 53, 530, 49},
        {530, 10, 53, 530, 0}, {531, 20, 28, 560, 29}, {2281, 20, 126, 2520, 239}, {5114, 20, 256, 5120, 6}};
    static const uint32_t none[] = {39, 0, 5115, FAR};
    uint32_t k, want[FIGURES];
    unsigned i;
    for (i = 0; i < sizeof known / sizeof known[0]; i++)
        EXPECT(gives(known[i][0], known[i]));
    for (k = WCDMA_MIN; k <= WCDMA_MAX; k++) {
        reckon(k, want);
        EXPECT(gives(k, want));
    }
    for (i = 0; i < sizeof none / sizeof none[0]; i++)
        EXPECT(refuses(none[i]));
}

/* every first K with itself and the three behind it as the last; the ranges that are known; and what is no range */
static void totals(void) {
    static const struct {
        uint32_t first, last, totals[TOTALS];
    } known[] = {{40, 40, {1, 40, 0}}, {40, 41, {2, 90, 9}}, {5114, 5114, {1, 5120, 6}}, {40, 5114, {5075, 13265345, 187070}}};
    static const uint32_t none[][2] = {{41, 40}, {39, 40}, {40, 5115}, {5115, 39}, {FAR, FAR}};
    uint32_t first, last, line[FIGURES];
    unsigned i;
    for (i = 0; i < sizeof known / sizeof known[0]; i++)
        EXPECT(sums_to(known[i].first, known[i].last, known[i].totals));
    for (first = WCDMA_MIN; first <= WCDMA_MAX; first++) {
        uint32_t want[TOTALS] = {0, 0, 0};
        for (last = first; last <= first + 3; last++) {
            if (last > WCDMA_MAX) {
                EXPECT(refuses_range(first, last));
                continue;
            }
            reckon(last, line);
            want[0]++;
            want[1] += line[3];
            want[2] += line[4];
            EXPECT(sums_to(first, last, want));
        }
    }
    for (i = 0; i < sizeof none / sizeof none[0]; i++)
        EXPECT(refuses_range(none[i][0], none[i][1]));
}

void report(void) {
    figures();
    totals();
    /* which K would have fitted, its set says */
    EXPECT(interleaver_fitting(&(interleaver_set)SET(5, 1, 39, 1)) == 40 && interleaver_fitting(&(interleaver_set)SET(5, 1, 5115, 1)) == 0);
}
