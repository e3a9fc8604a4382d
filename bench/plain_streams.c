/* Byte streams in plain C, dividing and stepping; branches and step are constants of the compiler in each. The ring of step * x bytes begins at
   step * x * (x - 1) / 2. */
#include "plain.h"

/* Byte t is of branch t mod branches, and the (t / branches)-th of its ring. DVB comes round after 5,654,880 bytes, so 32 bits do for its divisions. ATSC
   comes round after more bytes than 64 bits can count, so its t counts on. */
INLINE uint32_t divide_feed(uint32_t branches, uint32_t step, uint32_t round, int back, uint32_t *record, uint8_t *restrict store,
                            const uint8_t *restrict in, size_t n, uint8_t *restrict out)
{
    uint64_t t = record[0] | (uint64_t)record[1] << 32;
    for (size_t i = 0; i < n; i++) {
        uint32_t x = back ? branches - 1 - t % branches : t % branches;
        if (x == 0) {
            out[i] = in[i];
        } else {
            uint64_t turn = t / branches;
            uint8_t *slot = store + step * x * (x - 1) / 2 + (round != 0 ? (uint32_t)turn % (step * x) : turn % (step * x));
            out[i] = *slot;
            *slot = in[i];
        }
        t = t + 1 == round ? 0 : t + 1;
    }
    record[0] = (uint32_t)t;
    record[1] = t >> 32;
    return 0;
}

/* dvb[x], or atsc[x], is where ring x begins; record[0] is the ring to come, record[x] the place in ring x, counted from the store's start. */
static uint16_t dvb[13], atsc[53];

void step_start(uint32_t *record, uint32_t branches, uint32_t step, int back)
{
    for (uint32_t x = 1; x <= branches; x++)
        (branches == 12 ? dvb : atsc)[x] = step * x * (x - 1) / 2;
    for (uint32_t x = 1; x < branches; x++)
        record[x] = step * x * (x - 1) / 2;
    record[0] = back ? branches - 1 : 0;
}

INLINE uint32_t step_feed(uint32_t branches, const uint16_t *restrict first, int back, uint32_t *restrict record, uint8_t *restrict store,
                          const uint8_t *restrict in, size_t n, uint8_t *restrict out)
{
    uint32_t x = record[0];
    for (size_t i = 0; i < n; i++) {
        if (x == 0) {
            out[i] = in[i];
        } else {
            uint32_t place = record[x];
            out[i] = store[place];
            store[place++] = in[i];
            record[x] = place == first[x + 1] ? first[x] : place;
        }
        if (back)
            x = x == 0 ? branches - 1 : x - 1;
        else
            x = x == branches - 1 ? 0 : x + 1;
    }
    record[0] = x;
    return 0;
}

#define FEED(name, feed, ...) \
    uint32_t name(uint32_t *record, uint8_t *store, size_t a, const uint8_t *in, size_t n, uint8_t *out, size_t b) \
    { return (void)a, (void)b, feed(__VA_ARGS__, record, store, in, n, out); }
FEED(divide_dvb, divide_feed, 12, 17, 5654880, 0)
FEED(divide_dvb_back, divide_feed, 12, 17, 5654880, 1)
FEED(divide_atsc, divide_feed, 52, 4, 0, 0)
FEED(divide_atsc_back, divide_feed, 52, 4, 0, 1)
FEED(step_dvb, step_feed, 12, dvb, 0)
FEED(step_dvb_back, step_feed, 12, dvb, 1)
FEED(step_atsc, step_feed, 52, atsc, 0)
FEED(step_atsc_back, step_feed, 52, atsc, 1)
