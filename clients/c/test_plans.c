/* Plan files that are taken: lists worked out a second way, files written beside files made byte by byte, and every plan of them judged, as it is, with
   addresses changed, and with places missing and to spare. */
#include "test.h"

const uint32_t planned[PLANS][3] = {{1, 1, 12}, {1, 6, 1152}, {2, 2, 96}, {2, 6, 576}, {3, 1, 48}, {3, 2, 96}, {3, 4, 192}, {3, 6, 288},
    {4, 4, 64}, {4, 6, 96}, {4, 4, 1536}, {5, 1, 40}, {5, 1, 41}, {5, 1, 520}, {5, 1, 2281}, {5, 1, WCDMA_MAX}};

void put_number(uint8_t *at, uint32_t x) {
    unsigned i;
    for (i = 0; i < 4; i++)
        at[i] = (uint8_t)(x >> (24 - 8 * i));
}

void put_address(uint8_t *at, uint32_t x) {
    at[0] = (uint8_t)(x >> 8);
    at[1] = (uint8_t)x;
}

uint32_t number_at(const uint8_t *at) { return at[0] * 16777216u + at[1] * 65536u + at[2] * 256u + at[3]; }

uint32_t address_at(const uint8_t *at) { return at[0] * 256u + at[1]; }

int prime(uint32_t x) {
    uint32_t d;
    for (d = 2; d * d <= x; d++)
        if (x % d == 0)
            return 0;
    return 1;
}

static uint32_t common(uint32_t x, uint32_t y) { return y == 0 ? x : common(y, x % y); }

/* whether the powers of v modulo p are p - 1 */
static int generates(uint32_t v, uint32_t p) {
    uint32_t x, powers = 1;
    for (x = v; x != 1; x = x * v % p)
        powers++;
    return powers == p - 1;
}

/* the rectangle of 3GPP TS 25.212 4.2.3.2.3: filled by rows, the rows permuted within and among themselves, read by columns */
static void wcdma(uint32_t k, uint16_t *list) {
    static const uint8_t orders[2][20] = {{19, 9, 14, 4, 0, 2, 5, 7, 12, 18, 16, 13, 17, 15, 3, 1, 6, 11, 8, 10},
        {19, 9, 14, 4, 0, 2, 5, 7, 12, 18, 10, 8, 13, 17, 3, 1, 16, 6, 15, 11}};
    static uint32_t s[257], u[20][258];
    uint32_t own = k >= 481 && k <= 530, r = k <= 159 ? 5 : k <= 200 || own ? 10 : 20, p = own ? 53 : 7, v = 2, q[20] = {1}, t[20], c, i, j;
    while (!own && (k > r * (p + 1) || !prime(p)))
        p++;
    c = own ? p : k <= r * (p - 1) ? p - 1 : k <= r * p ? p : p + 1;
    while (!generates(v, p))
        v++;
    for (s[0] = 1, j = 1; j < p - 1; j++)
        s[j] = v * s[j - 1] % p;
    for (i = 1; i < r; i++)
        for (q[i] = q[i - 1] > 6 ? q[i - 1] + 1 : 7; !prime(q[i]) || common(q[i], p - 1) > 1;)
            q[i]++;
    for (i = 0; i < r; i++) {
        t[i] = r < 20 ? r - 1 - i : orders[!((k >= 2281 && k <= 2480) || (k >= 3161 && k <= 3210))][i];
        for (j = 0; j < p - 1; j++)
            u[t[i]][j] = s[j * q[i] % (p - 1)] - (c == p - 1);
        u[t[i]][p - 1] = 0;
        u[t[i]][p] = p;
    }
    if (c == p + 1 && k == r * c) {
        u[r - 1][p] = u[r - 1][0];
        u[r - 1][0] = p;
    }
    for (j = 0; j < c; j++)
        for (i = 0; i < r; i++)
            if (t[i] * c + u[t[i]][j] < k)
                *list++ = (uint16_t)(t[i] * c + u[t[i]][j]);
}

void list_of(const uint32_t *set, uint16_t *list) {
    uint32_t n = set[2], d = set[0] == 1 ? 12 : 16, s = set[1] < 4 ? 1 : set[1] / 2, k;
    if (set[0] == 5) {
        wcdma(n, list);
        return;
    }
    for (k = 0; k < n; k++) {
        uint32_t i = n / d * (k % d) + k / d, j = s * (i / s) + (i + n - d * i / n) % s;
        list[j] = (uint16_t)k;
    }
}

size_t make_file(uint8_t *file, const uint32_t (*sets)[3], unsigned plans, const uint32_t *counts) {
    static uint16_t list[WCDMA_MAX];
    size_t length = 4 + ENTRY * plans;
    unsigned i, j;
    put_number(file, plans);
    for (i = 0; i < plans; i++) {
        uint32_t count = counts != 0 ? counts[i] : sets[i][2];
        uint8_t *entry = file + 4 + ENTRY * i;
        for (j = 0; j < 3; j++)
            put_number(entry + 4 * j, sets[i][j]);
        put_number(entry + 12, (uint32_t)length);
        put_number(entry + 16, count);
        list_of(sets[i], list);
        for (j = 0; j < count; j++, length += 2)
            put_address(file + length, j < sets[i][2] ? list[j] : 0);
    }
    return length;
}

int judged(const uint8_t *file, size_t length, uint32_t plan, uint32_t first, uint32_t wrong) {
    uint32_t at = 77, count = 78;
    return interleaver_judge_plan(file, length, plan, &at, &count) == INTERLEAVER_DONE && at == first && count == wrong;
}

static uint8_t made[ROOM + 4], wrote[ROOM + 4];

/* a second way to every list */
static void lists(void) {
    static uint16_t list[WCDMA_MAX], walked[WCDMA_MAX];
    unsigned i, t, wrong;
    for (i = 0; i < PLANS; i++) {
        interleaver_set set = interleaver_set_of(planned[i][0], planned[i][1], planned[i][2]);
        uint32_t cell = 0, written = 0, cells;
        list_of(planned[i], list);
        EXPECT(interleaver_walk_l(&set, &cell, walked, set.n, &written, &cells) == 0 && written == set.n);
        EXPECT(memcmp(list, walked, 2 * set.n) == 0);
        for (wrong = 0, t = 0; t < set.n; t += set.n < 600 ? 1 : 97)
            wrong += at_l(set, t) != list[t];
        EXPECT(wrong == 0);
    }
}

/* the file of some sets in a row: its length, its bytes, nothing behind it, and each of its plans */
static void written(unsigned from, unsigned plans) {
    const uint32_t *sets = planned[from];
    size_t length = make_file(made, planned + from, plans, 0);
    uint32_t bytes = 77, count = 77;
    unsigned i;
    memset(wrote, 0xee, sizeof wrote);
    EXPECT(interleaver_plans_length(sets, 3 * plans, &bytes) == INTERLEAVER_DONE && bytes == length);
    EXPECT(interleaver_write_plans(sets, 3 * plans, wrote, length) == INTERLEAVER_DONE);
    EXPECT(memcmp(wrote, made, length) == 0 && all_bytes(wrote + length, sizeof wrote - length, 0xee));
    EXPECT(interleaver_plans(wrote, length, &count) == INTERLEAVER_DONE && count == plans);
    for (i = 1; i <= plans; i++)
        EXPECT(judged(wrote, length, i, 0, 0));
}

/* addresses of a plan of the file of all sets changed: one alone, any of a short list and a fourth of those of a long one, in its low bit, its high bit and
   its high byte's low bit; then one in the place of another, both, a third, and all */
static void changed(unsigned i) {
    static const uint32_t flips[] = {1, 32768, 256};
    size_t length = make_file(made, planned, PLANS, 0);
    uint8_t *list = made + number_at(made + 4 + ENTRY * i + 12);
    uint32_t n = planned[i][2], t, u, flip, kept;
    unsigned wrong = 0, plan = i + 1;
    for (t = 0; t < n; t += n < 600 || (t >= 508 && t < 516) || t >= n - 4 ? 1 : 4) /* a list is walked in pieces */
        for (flip = 0; flip < 3; flip++) {
            kept = address_at(list + 2 * t);
            put_address(list + 2 * t, kept ^ flips[flip]);
            wrong += !judged(made, length, plan, t, 1);
            put_address(list + 2 * t, kept);
        }
    EXPECT(wrong == 0 && judged(made, length, plan, 0, 0));
    t = n / 3, u = n - 1;
    kept = address_at(list + 2 * t);
    put_address(list + 2 * t, address_at(list + 2 * u));
    EXPECT(judged(made, length, plan, t, 1));
    put_address(list + 2 * u, kept);
    EXPECT(judged(made, length, plan, t, 2));
    list[2 * (t + 1) + 1] ^= 2;
    EXPECT(judged(made, length, plan, t, 3));
    memset(list, 0xff, 2 * n);
    EXPECT(judged(made, length, plan, 0, n));
    for (wrong = 0, t = 0; t < PLANS; t++)
        wrong += t != i && !judged(made, length, t + 1, 0, 0);
    EXPECT(wrong == 0);
}

/* a plan between two others whose list is empty, ends early, or goes on behind L with zeros; then another address wrong too */
static void cut_and_drawn_out(unsigned i) {
    uint32_t n = planned[i][2], sets[3][3] = {{3, 4, 192}, {0, 0, 0}, {5, 1, 41}}, counts[3] = {192, 0, 41}, k;
    static const uint32_t few[] = {1, 2, 7, 511, 512, 513};
    size_t length;
    uint8_t *list;
    memcpy(sets[1], planned[i], sizeof sets[1]);
    length = make_file(made, (const uint32_t (*)[3])sets, 3, counts);
    EXPECT(judged(made, length, 2, 0, n)); /* an empty list */
    for (k = 0; k < sizeof few / sizeof few[0]; k++) {
        counts[1] = n + few[k];
        length = make_file(made, (const uint32_t (*)[3])sets, 3, counts);
        list = made + number_at(made + 4 + ENTRY + 12);
        EXPECT(judged(made, length, 2, n, few[k]) && judged(made, length, 1, 0, 0) && judged(made, length, 3, 0, 0));
        list[2] ^= 128;
        EXPECT(judged(made, length, 2, 1, few[k] + 1));
        if (few[k] > n - 2)
            continue;
        counts[1] = n - few[k];
        length = make_file(made, (const uint32_t (*)[3])sets, 3, counts);
        EXPECT(judged(made, length, 2, counts[1], few[k]) && judged(made, length, 1, 0, 0) && judged(made, length, 3, 0, 0));
        list[2] ^= 128;
        EXPECT(judged(made, length, 2, 1, few[k] + 1));
    }
}

void plans(void) {
    unsigned i;
    lists();
    for (i = 0; i < PLANS; i++) {
        written(i, 1);
        written(0, i + 1);
        changed(i);
        cut_and_drawn_out(i);
    }
}
