/* Plan files that are not written: each refusal of the writer, in their order. A refused call leaves its out-parameter, or its buffer, alone. */
#include "test.h"

#define FAR 4294967295u
static const uint32_t shape[3] = {3, 4, 192};
static uint8_t file[ROOM + 4], other[ROOM + 4];

/* whether a file's length, and writing it into buffers of several lengths, is refused so */
static int unwritten(const uint32_t (*sets)[3], size_t numbers, uint32_t number) {
    static const size_t lengths[] = {0, 1, 4, 24, 508, ROOM, ROOM + 2};
    uint32_t bytes = 77;
    unsigned i, wrong = interleaver_plans_length(sets[0], numbers, &bytes) != number || bytes != 77;
    memset(other, 0xee, sizeof other);
    for (i = 0; i < sizeof lengths / sizeof lengths[0]; i++)
        wrong += interleaver_write_plans(sets[0], numbers, other, lengths[i]) != number;
    return wrong == 0 && all_bytes(other, sizeof other, 0xee);
}

/* how many sets: before what a set is refused with */
static void numbers_of_sets(void) {
    uint32_t good[PLANS + 3][3], bad[PLANS + 3][3], bytes;
    size_t numbers;
    for (numbers = 0; numbers < PLANS + 3; numbers++) {
        memcpy(good[numbers], shape, sizeof shape);
        memcpy(bad[numbers], shape, sizeof shape);
        bad[numbers][0] = 0;
    }
    for (numbers = 0; numbers <= 3 * (PLANS + 3); numbers++)
        if (numbers % 3 == 0 && numbers >= 3 && numbers <= 3 * PLANS) {
            EXPECT(unwritten((const uint32_t (*)[3])bad, numbers, INTERLEAVER_PROFILE));
            EXPECT(interleaver_plans_length(good[0], numbers, &bytes) == INTERLEAVER_DONE && bytes == 4 + numbers / 3 * (ENTRY + 384));
        } else {
            EXPECT(unwritten((const uint32_t (*)[3])good, numbers, INTERLEAVER_FORM));
            EXPECT(unwritten((const uint32_t (*)[3])bad, numbers, INTERLEAVER_FORM));
        }
}

/* two bad sets among five: the first one's number */
static void first_bad(void) {
    static const uint32_t bad[][4] = {{8, 1, 40, 1}, {9, 1, 24, 1}, {0, 4, 192, 1}, {6, 4, 208, 1}, {3, 3, 192, 2}, {5, 2, 40, 2}, {3, 4, 100, 3},
        {5, 1, FAR, 3}};
    const unsigned kinds = sizeof bad / sizeof bad[0];
    uint32_t sets[5][3];
    unsigned i, j, a, b;
    for (i = 0; i < 5; i++)
        for (j = i; j < 5; j++)
            for (a = 0; a < kinds; a++)
                for (b = 0; b < kinds; b++) {
                    memcpy(sets, planned + 5, sizeof sets);
                    memcpy(sets[j], bad[b], sizeof sets[j]);
                    memcpy(sets[i], bad[a], sizeof sets[i]);
                    EXPECT(unwritten((const uint32_t (*)[3])sets, 15, bad[a][3]));
                }
}

/* files of 65,536 bytes and of more, which a bad set goes before; and buffers that are too short or too long */
static void too_large(void) {
    uint32_t sets[PLANS][3], bytes = 77;
    const uint32_t (*given)[3] = (const uint32_t (*)[3])sets;
    size_t length;
    unsigned i;
    for (i = 0; i < PLANS; i++)
        memcpy(sets[i], planned[PLANS - 1], sizeof sets[i]);
    EXPECT(unwritten(given, 48, INTERLEAVER_FORM) && unwritten(given, 21, INTERLEAVER_FORM));
    sets[6][2] = 2013;
    EXPECT(unwritten(given, 21, INTERLEAVER_FORM));
    sets[6][2] = 2012;
    length = make_file(file, given, 7, 0);
    EXPECT(length == ROOM && interleaver_plans_length(sets[0], 21, &bytes) == INTERLEAVER_DONE && bytes == ROOM);
    memset(other, 0xee, sizeof other);
    EXPECT(interleaver_write_plans(sets[0], 21, other, ROOM - 1) == INTERLEAVER_OUTPUT && all_bytes(other, sizeof other, 0xee));
    EXPECT(interleaver_write_plans(sets[0], 21, other, ROOM + 1) == INTERLEAVER_OUTPUT && all_bytes(other, sizeof other, 0xee));
    EXPECT(interleaver_write_plans(sets[0], 21, other, ROOM) == INTERLEAVER_DONE && memcmp(file, other, ROOM) == 0);
    EXPECT(all_bytes(other + ROOM, sizeof other - ROOM, 0xee) && judged(other, ROOM, 7, 0, 0));
    sets[15][1] = 2;
    EXPECT(unwritten(given, 48, INTERLEAVER_BITS) && unwritten(given, 47, INTERLEAVER_FORM));
    for (i = 0; i < PLANS; i++) {
        length = make_file(file, planned + i, 1, 0);
        memset(other, 0xee, sizeof other);
        EXPECT(interleaver_write_plans(planned[i], 3, other, length - 1) == INTERLEAVER_OUTPUT);
        EXPECT(interleaver_write_plans(planned[i], 3, other, length + 1) == INTERLEAVER_OUTPUT);
        EXPECT(interleaver_write_plans(planned[i], 3, other, 0) == INTERLEAVER_OUTPUT && all_bytes(other, sizeof other, 0xee));
    }
}

void plans_unwritten(void) {
    numbers_of_sets();
    first_bad();
    too_large();
}
