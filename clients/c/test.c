/* Tests every call of interleaver.h: addresses that are known, document 01's starred ones among them, each refusal that can be reached and their
   order, the size that 3 carries, out-parameters and buffers left alone by a refused call, walks and streams cut into parts, receptions added up
   and read, the bits of floats, profiles 6 to 9 beside their formulas, plan files written and judged, the padding report. Prints a line for each
   failure, and the sum. This file: the test of a set, and one address. */
#include "test.h"

static unsigned passed, failed;

void expect(int ok, const char *what, const char *file, int line) {
    if (ok) {
        passed++;
    } else {
        failed++;
        printf("FAILED %s:%d: %s\n", file, line, what);
    }
}

/* a set of every stream */
#define EACH(profile, bits, n) SET(profile, bits, n, 1), SET(profile, bits, n, 2), SET(profile, bits, n, 3), SET(profile, bits, n, 4)

const interleaver_set accepted[SETS] = {SET(1, 1, 12, 1), SET(1, 6, 1152, 1), SET(2, 2, 96, 1), SET(2, 6, 576, 1), SET(3, 1, 48, 1),
    SET(3, 2, 96, 1), SET(3, 4, 192, 1), SET(3, 6, 288, 1), SET(4, 4, 64, 1), SET(4, 6, 96, 1), SET(4, 4, 1536, 1), SET(5, 1, 40, 1),
    SET(5, 1, 41, 1), SET(5, 1, 201, 1), SET(5, 1, 481, 1), SET(5, 1, 2281, 1), SET(5, 1, 5114, 1), LTE(40, 3, 10), LTE(40, 39, 30),
    LTE(512, 31, 64), LTE(528, 17, 66), LTE(6144, 263, 480), WIMAX(24, 5, 0, 0, 0), WIMAX(28, 2, 1, 2, 3), WIMAX(96, 7, 48, 24, 72),
    WIMAX(2400, 53, 66, 24, 2), EACH(6, 1, 52), EACH(6, 2, 104), EACH(6, 4, 208), EACH(6, 6, 312), EACH(7, 1, 108), EACH(7, 2, 216),
    EACH(7, 4, 432), EACH(7, 6, 648)};

const struct refused_set refused[REFUSED] = {{SET(0, 4, 192, 1), 1}, {SET(10, 4, 192, 1), 1}, {SET(4294967295u, 9, 9, 9), 1},
    {{10, 1, 40, 1, {3, 10, 0, 0}}, 1}, {{10, 1, 24, 1, {5, 0, 0, 0}}, 1}, {SET(2, 1, 96, 1), 2}, {SET(3, 3, 192, 1), 2},
    {SET(5, 2, 40, 1), 2}, {SET(6, 3, 156, 1), 2}, {SET(7, 5, 540, 1), 2}, {SET(8, 4, 192, 1), 2}, {{8, 2, 40, 1, {3, 10, 0, 0}}, 2},
    {SET(9, 4, 192, 1), 2}, {{9, 2, 24, 1, {5, 0, 0, 0}}, 2}, {SET(3, 4, 96, 1), 3}, {SET(1, 6, 1153, 1), 3},
    {SET(5, 1, 39, 1), 3}, {SET(5, 1, 5115, 1), 3}, {SET(3, 4, 0, 1), 3}, {SET(3, 4, 4294967295u, 1), 3}, {SET(6, 4, 432, 1), 3},
    {SET(7, 4, 208, 1), 3}, {LTE(32, 3, 10), 3}, {LTE(520, 3, 10), 3}, {LTE(6208, 3, 10), 3}, {SET(6, 1, 52, 0), 16}, {SET(7, 6, 648, 5), 16},
    {SET(6, 4, 208, 4294967295u), 16}, {SET(1, 1, 192, 2), 16}, {SET(2, 2, 192, 2), 16}, {SET(3, 4, 192, 2), 16}, {SET(4, 4, 192, 3), 16},
    {SET(5, 1, 192, 2), 16}, {SET(3, 4, 192, 0), 16}, {{8, 1, 40, 2, {3, 10, 0, 0}}, 16}, {SET(8, 1, 192, 1), 11}, {LTE(192, 23, 192), 11},
    {LTE(192, 192, 48), 11}, {LTE(192, 23, 50), 10}, {LTE(192, 27, 48), 10}, {LTE(6144, 263, 482), 10},
    {WIMAX(20, 5, 0, 0, 0), 3}, {WIMAX(26, 5, 0, 0, 0), 3}, {WIMAX(2404, 5, 0, 0, 0), 3},
    {{9, 1, 96, 2, {7, 48, 24, 72}}, 16}, {WIMAX(96, 96, 48, 24, 72), 11}, {WIMAX(96, 7, 96, 24, 72), 11}, {WIMAX(96, 7, 48, 96, 72), 11},
    {WIMAX(96, 7, 48, 24, 96), 11}, {SET(9, 1, 192, 1), 10}, {WIMAX(96, 7, 49, 24, 72), 10}, {WIMAX(96, 9, 48, 24, 72), 10},
    {WIMAX(2400, 55, 66, 24, 2), 10}};

uint8_t byte_of(uint32_t i) { return (uint8_t)(i * 31 + i / 251); }

int all_bytes(const uint8_t *p, size_t n, uint8_t x) {
    while (n > 0 && *p == x)
        p++, n--;
    return n == 0;
}

uint32_t at_l(interleaver_set set, uint32_t t) {
    uint32_t address = 4294967295u;
    EXPECT(interleaver_address_l(&set, t, &address) == 0);
    return address;
}

uint32_t at_m(interleaver_set set, uint32_t k) {
    uint32_t address = 4294967295u;
    EXPECT(interleaver_address_m(&set, k, &address) == 0);
    return address;
}

int walks_m(uint32_t profile) { return profile != 5 && profile != 8 && profile != 9; }

int receives(uint32_t profile) { return profile != 9; }

int all_addresses(const uint16_t *p, size_t n, uint16_t x) {
    while (n > 0 && *p == x)
        p++, n--;
    return n == 0;
}

static void sets(void) {
    interleaver_set made = interleaver_set_of(7, 6, 648), bare = {.profile = 3, .bits = 1, .n = 48};
    unsigned i;
    EXPECT(made.profile == 7 && made.bits == 6 && made.n == 648 && made.stream == 1 && sizeof made == 32);
    EXPECT((made.factors[0] | made.factors[1] | made.factors[2] | made.factors[3]) == 0);
    EXPECT(interleaver_test(&made) == INTERLEAVER_DONE);
    EXPECT(interleaver_test(&bare) == INTERLEAVER_STREAM); /* its stream is 0 */
    for (i = 0; i < SETS; i++)
        EXPECT(interleaver_test(&accepted[i]) == INTERLEAVER_DONE);
    for (i = 0; i < REFUSED; i++)
        EXPECT(interleaver_test(&refused[i].set) == refused[i].number);
}

static void addresses(void) {
    static const struct {
        interleaver_set set;
        uint32_t k, m;
    } known_m[] = {{SET(3, 4, 192, 1), 0, 0}, {SET(3, 4, 192, 1), 1, 13}, {SET(3, 4, 192, 1), 16, 1}, {SET(3, 4, 192, 1), 17, 12},
        {SET(3, 4, 192, 1), 191, 190}, {SET(3, 6, 288, 1), 1, 20}, {SET(3, 6, 288, 1), 2, 37}, {SET(3, 6, 288, 1), 3, 54},
        {SET(3, 6, 288, 1), 287, 287}, {SET(6, 1, 52, 1), 1, 4}, {SET(6, 1, 52, 2), 0, 30}, {SET(6, 1, 52, 2), 1, 34}, {SET(6, 1, 52, 3), 0, 41},
        {SET(6, 1, 52, 4), 0, 19}, {SET(6, 1, 52, 4), 51, 18}, {SET(7, 6, 648, 1), 1, 38}, {SET(7, 6, 648, 2), 1, 338},
        {SET(7, 6, 648, 3), 1, 512}, {SET(7, 6, 648, 4), 0, 126}, {SET(7, 6, 648, 4), 1, 164}};
    static const struct {
        interleaver_set set;
        uint32_t t, l;
    } known_l[] = {{SET(4, 4, 64, 1), 4, 17}, {SET(4, 4, 64, 1), 5, 1}, {SET(4, 4, 64, 1), 6, 49}, {SET(4, 4, 64, 1), 7, 33},
        {SET(4, 6, 96, 1), 6, 17}, {SET(5, 1, 40, 1), 0, 39}, {SET(5, 1, 40, 1), 9, 5}, {SET(5, 1, 40, 1), 35, 33}, {SET(5, 1, 40, 1), 39, 7},
        {SET(5, 1, 41, 1), 5, 36}, {LTE(40, 3, 10), 0, 0}, {LTE(40, 3, 10), 1, 13}, {LTE(40, 3, 10), 2, 6}, {LTE(40, 3, 10), 3, 19},
        {LTE(40, 3, 10), 4, 12}, {LTE(40, 3, 10), 39, 7}, {WIMAX(24, 5, 0, 0, 0), 0, 1}, {WIMAX(24, 5, 0, 0, 0), 1, 18},
        {WIMAX(24, 5, 0, 0, 0), 2, 11}, {WIMAX(24, 5, 0, 0, 0), 3, 4}, {WIMAX(24, 5, 0, 0, 0), 7, 0}, {WIMAX(24, 5, 0, 0, 0), 23, 8},
        {WIMAX(96, 7, 48, 24, 72), 1, 8}, {WIMAX(2400, 53, 66, 24, 2), 7, 1574}};
    uint32_t address = 77;
    unsigned i;
    for (i = 0; i < sizeof known_m / sizeof known_m[0]; i++) {
        EXPECT(at_m(known_m[i].set, known_m[i].k) == known_m[i].m);
        EXPECT(at_l(known_m[i].set, known_m[i].m) == known_m[i].k);
    }
    for (i = 0; i < sizeof known_l / sizeof known_l[0]; i++) {
        EXPECT(at_l(known_l[i].set, known_l[i].t) == known_l[i].l);
        EXPECT(at_m(known_l[i].set, known_l[i].l) == known_l[i].t);
    }
    for (i = 0; i < REFUSED; i++) {
        EXPECT(interleaver_address_l(&refused[i].set, 0, &address) == refused[i].number && address == 77);
        EXPECT(interleaver_address_m(&refused[i].set, 0, &address) == refused[i].number && address == 77);
    }
    for (i = 0; i < SETS; i++) {
        EXPECT(interleaver_address_l(&accepted[i], accepted[i].n, &address) == INTERLEAVER_POSITION && address == 77);
        EXPECT(interleaver_address_m(&accepted[i], 4294967295u, &address) == INTERLEAVER_POSITION && address == 77);
    }
}

int main(void) {
    sets();
    fitting();
    addresses();
    walks();
    spatial();
    lte();
    lte_refused();
    wimax();
    wimax_refused();
    order_of_refusals();
    bytes();
    floats();
    symbols();
    sums();
    streams();
    streams_refused();
    plans();
    plans_refused();
    plans_unwritten();
    report();
    printf("C: %u passed, %u failed\n", passed, failed);
    return failed != 0;
}
