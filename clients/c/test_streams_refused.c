/* The refusals of byte streams: the kind, the store's length by kind, branch and places, the output's length, alone and one upon the other. A refused
   call leaves store, output and record as they were. */
#include "test.h"

#define FAR 4294967295u
enum { FEED = 260 }; /* five turns, so that a feed that isn't refused would write to every ring */
static struct {
    uint8_t store[STORE_ROOM + 1], out[FEED + 1];
    interleaver_stream stream;
} lent, before;
static uint8_t in[FEED + 1];

/* 257 and 65,537 are 1 where a number is cut, and 258 and 65,538 are 2 */
static const uint32_t unknown[] = {0, 3, 4, 257, 258, 65537, 65538, 2147483649u, 4294967294u, FAR};
enum { UNKNOWN = sizeof unknown / sizeof unknown[0] };

/* a feed each way of the record that is lent: its number, and nothing changed */
static void says(uint32_t number, size_t store, size_t input, size_t out) {
    int back;
    memset(lent.store, 8, sizeof lent.store);
    memset(lent.out, 5, sizeof lent.out);
    memcpy(&before, &lent, sizeof lent);
    for (back = 0; back < 2; back++) {
        EXPECT(ways[back](&lent.stream, lent.store, store, in, input, lent.out, out) == number);
        EXPECT(memcmp(&lent, &before, sizeof lent) == 0);
    }
}

/* an input and an output of one length, none at all too */
static void says_of_any(uint32_t number, size_t store) {
    says(number, store, FEED, FEED);
    says(number, store, 1, 1);
    says(number, store, 0, 0);
}

/* an output that isn't as long as the input, where what stands before it has a number or, where that is 0, has not */
static void with_output(uint32_t number, size_t store) {
    static const size_t lengths[][2] = {{FEED, FEED - 1}, {FEED, FEED + 1}, {FEED, 0}, {1, 0}, {0, 1}, {0, FEED}};
    unsigned i;
    for (i = 0; i < sizeof lengths / sizeof lengths[0]; i++)
        says(number != 0 ? number : INTERLEAVER_OUTPUT, store, lengths[i][0], lengths[i][1]);
}

/* stores that no kind, or the other kind, has */
static void with_stores(const struct stream_kind *k, uint32_t number) {
    size_t lengths[] = {0, 1, k->store - 1, k->store + 1, kinds[0].store + kinds[1].store - k->store};
    unsigned i;
    for (i = 0; i < sizeof lengths / sizeof lengths[0]; i++) {
        says_of_any(number, lengths[i]);
        with_output(number, lengths[i]);
    }
}

/* a record with a fault, which may be its kind: 9, before the output; and before the store, or behind it */
static void with_fault(const struct stream_kind *k, int before_store) {
    says_of_any(INTERLEAVER_RECORD, k->store);
    with_output(INTERLEAVER_RECORD, k->store);
    with_stores(k, before_store ? INTERLEAVER_RECORD : INTERLEAVER_STORE);
}

/* every number of a record by itself: those just past its range, and those that would be in it if they were cut or taken for negative ones */
static void ranges(const struct stream_kind *k, interleaver_stream stream) {
    static const uint32_t far[] = {256, 65536, 2147483648u, FAR - 255, FAR};
    uint32_t x, y, i, past;
    for (i = 0; i < 60; i++) {
        lent.stream = stream;
        lent.stream.branch = i < 55 ? k->branches + i : far[i - 55];
        with_fault(k, 0);
    }
    for (x = 1; x <= RINGS; x++)
        for (i = 0; i < 6; i++) {
            past = x < k->branches ? size_of(k, x) : 1; /* a ring that the kind lacks has its place at 0 */
            lent.stream = stream;
            lent.stream.places[x - 1] = i == 0 ? past : far[i - 1];
            with_fault(k, 0);
            for (y = 1; y < k->branches; y++) /* with every other place, and the branch, at its last */
                if (y != x)
                    lent.stream.places[y - 1] = size_of(k, y) - 1;
            lent.stream.branch = k->branches - 1;
            says_of_any(INTERLEAVER_RECORD, k->store);
        }
}

static void starts(const struct stream_kind *k) {
    static const uint8_t fills[] = {0, 1, 127, 128, 255};
    size_t lengths[] = {0, 1, k->store - 1, k->store + 1, kinds[0].store, kinds[1].store};
    interleaver_stream want = started(k);
    unsigned i, j;
    memset(&lent, 0xa5, sizeof lent);
    memcpy(&before, &lent, sizeof lent);
    for (j = 0; j < sizeof lengths / sizeof lengths[0]; j++) {
        for (i = 0; i < UNKNOWN; i++) {
            EXPECT(interleaver_stream_start(unknown[i], lent.store, lengths[j], 9, &lent.stream) == INTERLEAVER_RECORD);
            EXPECT(memcmp(&lent, &before, sizeof lent) == 0);
        }
        if (lengths[j] != k->store) {
            EXPECT(interleaver_stream_start(k->kind, lent.store, lengths[j], 9, &lent.stream) == INTERLEAVER_STORE);
            EXPECT(memcmp(&lent, &before, sizeof lent) == 0);
        }
    }
    for (i = 0; i < sizeof fills / sizeof fills[0]; i++) {
        memset(&lent.stream, 0xa5, sizeof lent.stream);
        EXPECT(interleaver_stream_start(k->kind, lent.store, k->store, fills[i], &lent.stream) == INTERLEAVER_DONE);
        EXPECT(same_stream(&lent.stream, &want));
        EXPECT(all_bytes(lent.store, k->store, fills[i]) && all_bytes(lent.store + k->store, sizeof lent.store - k->store, 0xa5));
    }
}

/* what an unknown kind says doesn't hang on anything else in the record */
static void unknown_kinds(const struct stream_kind *k) {
    unsigned i;
    for (i = 0; i < UNKNOWN; i++) {
        lent.stream = stand_at(k, 2, i);
        lent.stream.kind = unknown[i];
        with_fault(k, 1);
        lent.stream.branch = lent.stream.places[0] = lent.stream.places[RINGS - 1] = FAR;
        with_fault(k, 1);
    }
}

void streams_refused(void) {
    const struct stream_kind *k;
    memset(in, 1, sizeof in);
    for (k = kinds; k < kinds + KINDS; k++) {
        starts(k);
        unknown_kinds(k);
        lent.stream = stand_at(k, 3, 1);
        with_stores(k, INTERLEAVER_STORE);
        with_output(INTERLEAVER_DONE, k->store);
        says(INTERLEAVER_DONE, k->store, 0, 0); /* no byte: done, and nothing moves */
        ranges(k, started(k));
        ranges(k, stand_at(k, 5, 4));
    }
}
