/* Byte streams of both kinds beside their closed form, cut raggedly: output, store and record from a start and from records in the middle; there
   and back; bursts. */
#include "test.h"

const struct stream_kind kinds[KINDS] = {{INTERLEAVER_DVB, 12, 17, 1122, 2244}, {INTERLEAVER_ATSC, 52, 4, 5304, 10608}};
feed *const ways[2] = {interleaver_stream_interleave, interleaver_stream_deinterleave};

enum { LONG = 60000 }; /* five turns of ATSC's largest ring, and more */
static uint8_t in[LONG], mid[LONG + 1], out[LONG + 1];

uint32_t size_of(const struct stream_kind *k, uint32_t x) { return x < k->branches ? k->step * x : 0; }

interleaver_stream stand_at(const struct stream_kind *k, uint32_t branch, uint32_t seed) {
    interleaver_stream stream = started(k);
    uint32_t x;
    stream.branch = branch;
    for (x = 1; x < k->branches; x++)
        stream.places[x - 1] = (seed * 89 + x * 61) % size_of(k, x);
    return stream;
}

interleaver_stream started(const struct stream_kind *k) {
    interleaver_stream stream = {0, 0, {0}};
    stream.kind = k->kind;
    return stream;
}

int same_stream(const interleaver_stream *a, const interleaver_stream *b) { return memcmp(a, b, sizeof *a) == 0; }

/* the ring of branch j, and the branch of ring x */
static uint32_t across(const struct stream_kind *k, int back, uint32_t j) { return back ? k->branches - 1 - j : j; }

/* how many bytes of ring x there are among t bytes, of which the first is of branch j; and which the first of them is */
static uint32_t bytes_of(const struct stream_kind *k, int back, uint32_t j, uint32_t x, uint32_t t, uint32_t *first) {
    *first = (across(k, back, x) + k->branches - j) % k->branches;
    return (t + k->branches - 1 - *first) / k->branches;
}

/* the record that t bytes from a record come to */
static interleaver_stream after(const struct stream_kind *k, int back, const interleaver_stream *from, uint32_t t) {
    interleaver_stream stream = *from;
    uint32_t x, first;
    stream.branch = (from->branch + t) % k->branches;
    for (x = 1; x < k->branches; x++)
        stream.places[x - 1] = (from->places[x - 1] + bytes_of(k, back, from->branch, x, t, &first)) % size_of(k, x);
    return stream;
}

/* output t of a machine that stood at branch j with a store full of fill */
static uint8_t late(const struct stream_kind *k, int back, uint32_t j, uint8_t fill, const uint8_t *input, uint32_t t) {
    uint32_t delay = k->branches * k->step * across(k, back, (j + t) % k->branches);
    return t < delay ? fill : input[t - delay];
}

/* whether a store that was full of fill holds in each place of each ring the byte that came there last */
static int stores(const struct stream_kind *k, int back, const interleaver_stream *from, uint8_t fill, const uint8_t *input, uint32_t t,
                  const uint8_t *store) {
    uint32_t x, place, first, count, n, wrong = 0;
    for (x = 1; x < k->branches; x++) {
        count = bytes_of(k, back, from->branch, x, t, &first);
        for (place = 0; place < size_of(k, x); place++, store++) {
            n = (place + size_of(k, x) - from->places[x - 1]) % size_of(k, x); /* the ring's byte that comes here first */
            if (n < count)
                n += (count - 1 - n) / size_of(k, x) * size_of(k, x);
            wrong += *store != (n < count ? input[first + n * k->branches] : fill);
        }
    }
    return wrong == 0;
}

/* ragged parts: short ones, some of them of no byte, and such as turn every ring several times in one feed */
enum { SHORT = 613, WIDE = 25013 };
static uint32_t part_of(uint32_t part, uint32_t most, uint32_t left) {
    uint32_t n = part * 9973 % most;
    return n < left ? n : left;
}

/* t bytes from a record, over a store full of fill; between the feeds refused ones, which change nothing */
static void run(const struct stream_kind *k, int back, interleaver_stream from, uint8_t fill, const uint8_t *input, uint32_t t, uint32_t most) {
    static uint8_t store[STORE_ROOM + 1];
    interleaver_stream stream, want;
    uint32_t at, n, part = from.branch, wrong = 0;
    uint8_t other = (uint8_t)(fill + 1);
    memset(store, other, sizeof store);
    memset(&stream, 0xa5, sizeof stream);
    want = started(k);
    EXPECT(interleaver_stream_start(k->kind, store, k->store, fill, &stream) == INTERLEAVER_DONE && same_stream(&stream, &want));
    EXPECT(all_bytes(store, k->store, fill) && store[k->store] == other);
    stream = from;
    for (at = 0; at < t; at += n) {
        n = part_of(part++, most, t - at);
        out[at + n] = 0xa5;
        EXPECT(ways[back](&stream, store, k->store, input + at, n, out + at, n + 1) == INTERLEAVER_OUTPUT);
        EXPECT(ways[back](&stream, store, k->store, input + at, n, out + at, n) == INTERLEAVER_DONE && out[at + n] == 0xa5);
        want = after(k, back, &from, at + n);
        EXPECT(same_stream(&stream, &want));
    }
    for (at = 0; at < t; at++)
        wrong += out[at] != late(k, back, from.branch, fill, input, at);
    EXPECT(wrong == 0);
    EXPECT(stores(k, back, &from, fill, input, t, store) && store[k->store] == other);
}

/* both machines standing at one record, the parts of the two ways not alike: as it went in, late, and before it the fill */
static void there_and_back(const struct stream_kind *k, interleaver_stream from) {
    static uint8_t there[STORE_ROOM], back[STORE_ROOM];
    interleaver_stream p, q;
    uint32_t at, n, part = 0, half;
    EXPECT(interleaver_stream_start(k->kind, there, k->store, 170, &p) == 0 && interleaver_stream_start(k->kind, back, k->store, 170, &q) == 0);
    p = q = from;
    for (at = 0; at < LONG; at += n) {
        n = part_of(part++, SHORT, LONG - at);
        half = n / 2;
        EXPECT(interleaver_stream_interleave(&p, there, k->store, in + at, n, mid + at, n) == 0);
        EXPECT(interleaver_stream_deinterleave(&q, back, k->store, mid + at, half, out + at, half) == 0);
        EXPECT(interleaver_stream_deinterleave(&q, back, k->store, mid + at + half, n - half, out + at + half, n - half) == 0);
    }
    EXPECT(all_bytes(out, k->delay, 170));
    EXPECT(memcmp(out + k->delay, in, LONG - k->delay) == 0);
}

/* a burst of n bytes that can be told apart, in a channel that is else 0: where each comes out of the deinterleaver, and how near two of them */
static void burst(const struct stream_kind *k, uint32_t at, uint32_t n, uint32_t nearest) {
    static uint8_t channel[LONG], store[STORE_ROOM];
    interleaver_stream stream;
    uint32_t t, a, i, end = at + n + k->delay, found = 0, last = end, least = end;
    memset(channel, 0, end);
    for (i = 0; i < n; i++)
        channel[at + i] = (uint8_t)(i + 1);
    EXPECT(interleaver_stream_start(k->kind, store, k->store, 0, &stream) == 0);
    for (t = 0; t < end; t += i) {
        i = part_of(t + at, SHORT, end - t);
        i += i == 0;
        EXPECT(interleaver_stream_deinterleave(&stream, store, k->store, channel + t, i, out + t, i) == 0);
    }
    for (t = 0; t < end; t++)
        if (out[t] > 0) {
            a = at + out[t] - 1;
            EXPECT(t == a + k->branches * k->step * (k->branches - 1 - a % k->branches));
            if (last < t && t - last < least)
                least = t - last;
            last = t;
            found++;
        }
    EXPECT(found == n && least == nearest);
}

static void every_run(const struct stream_kind *k) {
    static uint8_t zeros[LONG], ones[LONG];
    interleaver_stream stream = started(k);
    uint32_t j, x;
    int back;
    memset(ones, 255, sizeof ones);
    for (back = 0; back < 2; back++) {
        run(k, back, started(k), 170, in, LONG, SHORT);
        run(k, back, started(k), 170, in, LONG, WIDE);
        run(k, back, started(k), 255, zeros, k->delay + 700, SHORT); /* a byte of 0 is a byte like any other */
        run(k, back, stand_at(k, 1, 2), 0, ones, k->delay + 700, SHORT);
        for (j = 0; j < k->branches; j++) /* a machine goes on from where its record stands, whether or not its store was ever there */
            run(k, back, stand_at(k, j, 3 * j), (uint8_t)j, in + j, 2 * k->delay + 37 * j, j % 3 == 0 ? WIDE : SHORT);
        for (x = 1; x < k->branches; x++)
            stream.places[x - 1] = size_of(k, x) - 1;
        for (j = 0; j < k->branches; j += k->branches - 1) { /* every place the last of its ring */
            stream.branch = j;
            run(k, back, stream, 1, in, k->delay + 1, SHORT);
        }
    }
}

void streams(void) {
    const struct stream_kind *k;
    uint32_t i, at;
    EXPECT(sizeof(interleaver_stream) == 53 * sizeof(uint32_t));
    EXPECT(INTERLEAVER_DVB_STORE == kinds[0].store && INTERLEAVER_DVB_DELAY == kinds[0].delay);
    EXPECT(INTERLEAVER_ATSC_STORE == kinds[1].store && INTERLEAVER_ATSC_DELAY == kinds[1].delay);
    for (i = 0; i < LONG; i++)
        in[i] = byte_of(i);
    for (k = kinds; k < kinds + KINDS; k++) {
        every_run(k);
        there_and_back(k, started(k));
        there_and_back(k, stand_at(k, k->branches / 2, 5));
        for (at = 0; at < 2 * k->branches; at++) {
            burst(k, at, k->branches, k->branches * k->step - 1);
            burst(k, at, k->branches + 1, k->branches);
        }
    }
    for (i = 0; i < LONG && in[i] == byte_of(i); i++)
        ;
    EXPECT(i == LONG);
}
