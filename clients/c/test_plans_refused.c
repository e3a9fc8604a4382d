/* Plan files that are refused, the largest that isn't, sets in a file that are refused, and plans that a file doesn't have. A refused call leaves its
   out-parameters alone. */
#include "test.h"

#define FAR 4294967295u
#define HALF 2147483648u
static const uint32_t two[2][3] = {{3, 4, 192}, {5, 1, 40}};
static uint8_t file[ROOM + 4];

/* whether judging a plan is refused so, with both out-parameters left alone */
static int unjudged(const uint8_t *bytes, size_t length, uint32_t plan, uint32_t number) {
    uint32_t first = 77, wrong = 78;
    return interleaver_judge_plan(bytes, length, plan, &first, &wrong) == number && first == 77 && wrong == 78;
}

/* whether a file is refused with 12, whatever the plan */
static int unformed(const uint8_t *bytes, size_t length) {
    static const uint32_t asked[] = {0, 1, 2, 3, 17, FAR};
    uint32_t count = 77;
    unsigned i, wrong = interleaver_plans(bytes, length, &count) != INTERLEAVER_FORM || count != 77;
    for (i = 0; i < sizeof asked / sizeof asked[0]; i++)
        wrong += !unjudged(bytes, length, asked[i], INTERLEAVER_FORM);
    return wrong == 0;
}

static int formed(const uint8_t *bytes, size_t length, uint32_t plans) {
    uint32_t count = 77;
    return interleaver_plans(bytes, length, &count) == INTERLEAVER_DONE && count == plans;
}

/* the file of two plans, cut at every length, and with bytes too many */
static void cut(void) {
    size_t length = make_file(file, two, 2, 0), i;
    unsigned wrong = 0;
    for (i = 0; i < length; i++)
        wrong += !unformed(file, i);
    EXPECT(wrong == 0 && length == 508 && formed(file, length, 2));
    for (i = length + 1; i < length + 5; i++)
        EXPECT(unformed(file, i));
}

/* whether a plan whose set may be any, and whose list may be another set's, is judged rightly */
static int judged_anew(const uint8_t *bytes, size_t length, unsigned i) {
    static uint16_t list[WCDMA_MAX];
    const uint8_t *entry = bytes + 4 + ENTRY * i, *at = bytes + number_at(entry + 12);
    uint32_t numbers[3] = {number_at(entry), number_at(entry + 4), number_at(entry + 8)}, count = number_at(entry + 16), first = 0, wrong = 0, t;
    interleaver_set set = interleaver_set_of(numbers[0], numbers[1], numbers[2]);
    uint32_t number = set.profile > 5 ? INTERLEAVER_PROFILE : interleaver_test(&set);
    if (number != INTERLEAVER_DONE)
        return unjudged(bytes, length, i + 1, number);
    list_of(numbers, list);
    for (t = 0; t < count || t < set.n; t++)
        if (t >= count || t >= set.n || address_at(at + 2 * t) != list[t])
            first = wrong++ == 0 ? t : first;
    return judged(bytes, length, i + 1, first, wrong);
}

/* each number of the header another: the form goes with the number of plans, offsets and counts, and not with sets, which are judged by themselves */
static void header(void) {
    static const uint32_t tried[] = {0, 1, 2, 3, 4, 5, 6, 8, 9, 16, 17, 40, 41, 44, 192, 256, 261, 428, 508, 65536, HALF - 1, HALF, HALF + 40, FAR};
    unsigned i, j, wrong;
    size_t length = make_file(file, two, 2, 0);
    for (i = 0; i < 11; i++)
        for (j = 0; j < sizeof tried / sizeof tried[0]; j++) {
            uint32_t kept = number_at(file + 4 * i);
            if (tried[j] == kept)
                continue;
            put_number(file + 4 * i, tried[j]);
            if (i % 5 == 4 || i % 5 == 0)
                EXPECT(unformed(file, length));
            else
                EXPECT(formed(file, length, 2) && judged_anew(file, length, 0) && judged_anew(file, length, 1));
            put_number(file + 4 * i, kept);
        }
    for (wrong = 0, i = 0; i < 4 * 11 * 8; i++) { /* each bit by itself */
        file[i / 8] ^= (uint8_t)(1 << i % 8);
        j = i / 32;
        if (j % 5 == 4 || j % 5 == 0)
            wrong += !unformed(file, length);
        else
            wrong += !formed(file, length, 2) || !judged_anew(file, length, 0) || !judged_anew(file, length, 1);
        file[i / 8] ^= (uint8_t)(1 << i % 8);
    }
    EXPECT(wrong == 0 && judged(file, length, 1, 0, 0) && judged(file, length, 2, 0, 0));
}

/* lists that stand elsewhere: two at one place, one into the other, the second first, two bytes between, two bytes before them; and counts whose double
   passes 32 bits */
static void elsewhere(void) {
    static const uint32_t same[2][3] = {{3, 4, 192}, {3, 4, 192}}, one[1][3] = {{3, 1, 48}};
    size_t length = make_file(file, same, 2, 0);
    uint8_t *offsets[2] = {file + 16, file + 36}, *counts[2] = {file + 20, file + 40};
    put_number(offsets[1], 44);
    EXPECT(unformed(file, length) && unformed(file, length - 384));
    put_number(offsets[1], 426);
    EXPECT(unformed(file, length) && unformed(file, length - 2));
    put_number(offsets[0], 428);
    put_number(offsets[1], 44);
    EXPECT(unformed(file, length));
    put_number(offsets[0], 44);
    put_number(offsets[1], 430);
    EXPECT(unformed(file, length) && unformed(file, length + 2));
    put_number(offsets[0], 46);
    EXPECT(unformed(file, length) && unformed(file, length + 2));
    put_number(offsets[0], 44);
    put_number(offsets[1], 428);
    EXPECT(formed(file, length, 2) && unformed(file, length + 1) && unformed(file, length - 1));
    put_number(counts[0], HALF + 192); /* doubled in 32 bits, as before */
    EXPECT(unformed(file, length));
    put_number(counts[1], HALF + 192);
    EXPECT(unformed(file, length));
    put_number(counts[0], 192);
    EXPECT(unformed(file, length));
    length = make_file(file, one, 1, 0);
    put_number(counts[0], HALF);
    EXPECT(unformed(file, length) && unformed(file, 24));
    put_number(counts[0], 0);
    EXPECT(unformed(file, length) && judged(file, 24, 1, 0, 48));
    put_number(file, 214748365); /* twenty of each are 4 in 32 bits */
    EXPECT(unformed(file, 8) && unformed(file, 24) && unformed(file, length));
    put_number(file, 0);
    EXPECT(unformed(file, 4) && unformed(file, 24));
}

/* 16 plans and 17; files of 65,536 bytes, and of more */
static void largest(void) {
    uint32_t sets[PLANS + 1][3], count[1] = {(ROOM - 24) / 2}, counts[2] = {192, (ROOM - 44) / 2 - 192};
    const uint32_t (*given)[3] = (const uint32_t (*)[3])sets;
    size_t length;
    unsigned i;
    for (i = 0; i <= PLANS; i++)
        memcpy(sets[i], two[0], sizeof two[0]);
    length = make_file(file, given, PLANS, 0);
    EXPECT(formed(file, length, 16) && judged(file, length, 16, 0, 0) && unjudged(file, length, 17, INTERLEAVER_POSITION));
    length = make_file(file, given, PLANS + 1, 0);
    EXPECT(unformed(file, length));
    length = make_file(file, two, 1, count);
    EXPECT(length == ROOM && formed(file, length, 1) && judged(file, length, 1, 192, count[0] - 192));
    length = make_file(file, two, 2, counts);
    EXPECT(length == ROOM && formed(file, length, 2) && judged(file, length, 1, 0, 0) && judged(file, length, 2, 40, counts[1] - 40));
    EXPECT(unformed(file, ROOM + 1) && unformed(file, ROOM + 2));
    counts[1]++;
    length = make_file(file, two, 2, counts);
    EXPECT(length == ROOM + 2 && unformed(file, length) && unformed(file, length - 1) && unformed(file, ROOM));
}

/* sets that a file has and that are refused, and plans that it doesn't have: 4 before the set's number */
static void sets_and_plans(void) {
    static const struct {
        uint32_t set[3], number;
    } bad[] = {{{0, 4, 192}, 1}, {{6, 4, 208}, 1}, {{7, 1, 108}, 1}, {{8, 1, 40}, 1}, {{9, 1, 24}, 1}, {{10, 4, 192}, 1}, {{259, 4, 192}, 1}, {{261, 1, 40}, 1},
        {{HALF + 3, 4, 192}, 1}, {{FAR, 9, 9}, 1}, {{6, 3, 0}, 1}, {{3, 0, 192}, 2}, {{3, 3, 192}, 2}, {{3, 260, 192}, 2}, {{2, 1, 96}, 2},
        {{5, 2, 40}, 2}, {{3, FAR, 7}, 2}, {{3, 4, 191}, 3}, {{3, 4, 0}, 3}, {{3, 4, 65728}, 3}, {{5, 1, 39}, 3}, {{5, 1, 5115}, 3}, {{5, 1, FAR}, 3}};
    static const uint32_t beyond[] = {0, 3, 4, 16, 17, 257, 65537, HALF + 1, FAR};
    size_t length = make_file(file, two, 2, 0);
    unsigned i, j;
    for (i = 0; i < sizeof bad / sizeof bad[0]; i++) {
        for (j = 0; j < 3; j++)
            put_number(file + 24 + 4 * j, bad[i].set[j]);
        EXPECT(formed(file, length, 2) && unjudged(file, length, 2, bad[i].number) && judged(file, length, 1, 0, 0));
        for (j = 0; j < sizeof beyond / sizeof beyond[0]; j++)
            EXPECT(unjudged(file, length, beyond[j], INTERLEAVER_POSITION));
        EXPECT(unformed(file, length - 2)); /* 12 before both */
    }
}

void plans_refused(void) {
    cut();
    header();
    elsewhere();
    largest();
    sets_and_plans();
}
