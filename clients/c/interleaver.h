/* Interleavers for C: address lists, whole blocks of bytes and of floats, repeated receptions added up, byte streams of DVB and ATSC,
   plan files, the padding report of WCDMA.

       interleaver_set set = interleaver_set_of(INTERLEAVER_WLAN, 4, 192);
       uint8_t in[192], out[192];
       ...
       if (interleaver_interleave_bytes(&set, in, 192, out, 192) != INTERLEAVER_DONE)
           return -1;

   Every call of the archive but interleaver_fitting gives 0 when it is done, else the number of its first refusal, in the order in which its comment
   lists them (the functions that are written out here make a set, or count its symbols, and refuse nothing); a refused call leaves every buffer and
   every out-parameter as it was. L is the list of input indices in output order, M its inverse: interleaving gives out[t] = in[L(t)], deinterleaving
   out[L(t)] = in[t]. Of profile 9 the indices of L and M are those of couples: see interleaver_set_wimax. A buffer is a pointer and the number of its
   elements.

   The caller sees to it that no pointer is null (not even of a buffer of length 0), that each points to as much memory as its length says,
   and that nothing a call writes overlaps anything else it is given; and, where receptions are added, that floating point rounds to nearest, keeps denormals
   and has its exceptions masked, as at a program's start. No call keeps a pointer, allocates, or has memory of its own but for 16 KiB
   of stack: calls on different buffers may run at once. */
#ifndef INTERLEAVER_H
#define INTERLEAVER_H
#include <stddef.h>
#include <stdint.h>
#ifdef __cplusplus
extern "C" {
#endif

/* A parameter set. Any numbers may be given: each call tests them. One written as {3, 1, 48} has stream 0, and every call refuses it with 16. */
typedef struct interleaver_set {
    uint32_t profile;    /* see below */
    uint32_t bits;       /* bits per carrier: 1, 2, 4 or 6; profiles 5, 8 and 9: 1 */
    uint32_t n;          /* symbols of a block; of profile 9 couples, of two symbols each */
    uint32_t stream;     /* spatial stream: 1 to 4 for profiles 6 and 7, 1 for every other */
    uint32_t factors[4]; /* of profile 9: P0 to P3; of profile 8: f1 and f2, and the last two are not read; of every other profile none is read */
} interleaver_set;

/* The set of stream 1, with factors of 0. For another stream: set.stream = 4; */
static inline interleaver_set interleaver_set_of(uint32_t profile, uint32_t bits, uint32_t n) {
    interleaver_set set;
    set.profile = profile;
    set.bits = bits;
    set.n = n;
    set.stream = 1;
    set.factors[0] = set.factors[1] = set.factors[2] = set.factors[3] = 0;
    return set;
}

#define INTERLEAVER_OFDM 1u  /* IEEE 802.16 OFDM */
#define INTERLEAVER_OFDMA 2u /* IEEE 802.16 OFDMA */
#define INTERLEAVER_WLAN 3u  /* IEEE 802.11a */
#define INTERLEAVER_BENCH 4u
#define INTERLEAVER_WCDMA 5u /* 3GPP TS 25.212, turbo */
#define INTERLEAVER_HT20 6u  /* IEEE 802.11n, 20 MHz */
#define INTERLEAVER_HT40 7u  /* IEEE 802.11n, 40 MHz */
#define INTERLEAVER_LTE 8u   /* 3GPP TS 36.212, turbo */
#define INTERLEAVER_WIMAX 9u /* IEEE 802.16, turbo couples */

/* The set of profile 8 for a block of k, L(t) = (f1*t + f2*t*t) mod k. k is 40 to 512 by 8, to 1,024 by 16, to 2,048 by 32, to 6,144 by 64. */
static inline interleaver_set interleaver_set_lte(uint32_t k, uint32_t f1, uint32_t f2) {
    interleaver_set set = interleaver_set_of(INTERLEAVER_LTE, 1, k);
    set.factors[0] = f1;
    set.factors[1] = f2;
    return set;
}

/* The set of profile 9 for a block of n couples, 2n symbols: couple c is symbols 2c, its A, and 2c + 1, its B. First the odd-numbered couples swap A and B,
   then output couple j is couple L(j) = (p0*j + Q) mod n, where Q is 1, 1 + n/2 + p1, 1 + p2, 1 + n/2 + p3 for j mod 4 = 0, 1, 2, 3. Positions, cells and
   addresses are those of couples. n is a multiple of 4 from 24 to 2,400. */
static inline interleaver_set interleaver_set_wimax(uint32_t n, uint32_t p0, uint32_t p1, uint32_t p2, uint32_t p3) {
    interleaver_set set = interleaver_set_of(INTERLEAVER_WIMAX, 1, n);
    set.factors[0] = p0;
    set.factors[1] = p1;
    set.factors[2] = p2;
    set.factors[3] = p3;
    return set;
}

/* How many symbols a block of the set has: 2n of profile 9, n of every other. It tests nothing, and goes by what profile and n say. */
static inline size_t interleaver_symbols(const interleaver_set *set) {
    return set->profile == INTERLEAVER_WIMAX ? 2 * (size_t)set->n : set->n;
}

/* The record of a byte stream: a start sets it, each feed moves it on. Ring x, from 1 to branches - 1, has x steps of the store, and the rings lie there
   in rising size. Branch j of an interleaver has ring j, of a deinterleaver ring branches - 1 - j; ring 0 has no bytes, and passes each at once. */
typedef struct interleaver_stream {
    uint32_t kind;       /* see below */
    uint32_t branch;     /* that of the next byte, below the kind's branches */
    uint32_t places[51]; /* of ring x at x - 1: where in the ring its next byte goes, below x steps; DVB has 11 rings, and the other 40 places are 0 */
} interleaver_stream;

#define INTERLEAVER_DVB 1u  /* ETSI EN 300 744: 12 branches, steps of 17 bytes */
#define INTERLEAVER_ATSC 2u /* ATSC A/53: 52 branches, steps of 4 bytes */

#define INTERLEAVER_MAX_N 6144u       /* the largest n of any set; no block has more symbols */
#define INTERLEAVER_DVB_STORE 1122u   /* bytes of a store of kind DVB */
#define INTERLEAVER_DVB_DELAY 2244u   /* an interleaver and a deinterleaver together are this many bytes late */
#define INTERLEAVER_ATSC_STORE 5304u  /* the same of kind ATSC */
#define INTERLEAVER_ATSC_DELAY 10608u
#define INTERLEAVER_PLANS 16u         /* a plan file has 1 to so many plans */
#define INTERLEAVER_PLAN_BYTES 65536u /* and at most so many bytes */

/* What a call of the archive but interleaver_fitting gives back: INTERLEAVER_DONE, or why it was refused. No call gives 8. */
#define INTERLEAVER_DONE 0u
#define INTERLEAVER_PROFILE 1u   /* the profile isn't 1 to 9, or it is 5, 8 or 9 and the call is the walk for M, or it is 9 and the call is on receptions,
                                    or it is above 5 and a plan file's */
#define INTERLEAVER_BITS 2u      /* the bits aren't listed for the profile */
#define INTERLEAVER_SIZE 3u      /* n isn't listed for that profile and those bits, or k not for profile 8 or 5; interleaver_fitting says which is;
                                    or a first or a last k isn't listed for profile 5, or the first is above the last */
#define INTERLEAVER_POSITION 4u  /* a position is n or more, or a plan is 0 or more than the file has */
#define INTERLEAVER_INPUT 5u     /* a block's input isn't n long, or of profile 9 2n, or its presence bytes aren't n */
#define INTERLEAVER_OUTPUT 6u    /* a block's output isn't n long, or of profile 9 2n, or sums or counts aren't n, or a feed's output isn't as long as its
                                    input, or the buffer of a plan file isn't as long as the file */
#define INTERLEAVER_STORE 7u     /* a store isn't as long as its kind asks: 1,122 bytes, or 5,304 */
#define INTERLEAVER_RECORD 9u    /* a cell is past the cell total, or a byte stream's kind isn't 1 or 2, or its branch or a place is out of its range */
#define INTERLEAVER_SHARED 10u   /* profiles 8 and 9: two positions would share an address */
#define INTERLEAVER_FACTORS 11u  /* profile 8: f1 or f2 is 0, or not below n; profile 9: one of P0 to P3 isn't below n */
#define INTERLEAVER_FORM 12u     /* a plan file isn't of the form, or its sets are not 1 to 16, or it would pass 65,536 bytes */
#define INTERLEAVER_FINITE 13u   /* a present value, a stored sum whose count isn't 0, or the sum of these two isn't finite */
#define INTERLEAVER_PRESENCE 14u /* a presence byte is above 1 */
#define INTERLEAVER_COUNT 15u    /* a count would pass 65,535 */
#define INTERLEAVER_STREAM 16u   /* a set's spatial stream (no byte stream) isn't 1 to 4, or isn't 1 and the profile is neither 6 nor 7 */

/* The test of a parameter set. Refusals 1, 2, 3, 16, 11, 10. */
uint32_t interleaver_test(const interleaver_set *set);

/* Which n would have fitted: where the test of the set gives 3, the least listed n not below its own, for its profile and bits, or 0 if there is none.
   0 where the test gives anything else. What is given is a size, not a refusal. For a k that interleaver_lte_factors refuses, ask with
   interleaver_set_of(INTERLEAVER_LTE, 1, k), for one that interleaver_wcdma_figures refuses with interleaver_set_of(INTERLEAVER_WCDMA, 1, k). */
uint32_t interleaver_fitting(const interleaver_set *set);

/* The standard's own factors for a block of k of profile 8, 3GPP TS 36.212 table 5.1.3-3: f1, f2, 0, 0. A set's own may be handed over: set.factors.
   Every set made of them is accepted. Refusal 3. */
uint32_t interleaver_lte_factors(uint32_t k, uint32_t factors[4]);

/* The padding report of profile 5, 3GPP TS 25.212 4.2.3.2.3.1: a block of k is written into R rows of C columns, and the cells behind its last symbol are
   padding. The figures are k, R, C, the cells R*C, and how many of them are padding, R*C - k. Refusal 3, where k isn't 40 to 5,114: the five numbers are
   then as they were. */
uint32_t interleaver_wcdma_figures(uint32_t k, uint32_t figures[5]);

/* Its totals over every k from first to last, these two among them: how many they are, the sum of their cells, the sum of their padding. Refusal 3, where
   first or last isn't 40 to 5,114, or first is above last: the three numbers are then as they were. */
uint32_t interleaver_wcdma_totals(uint32_t first, uint32_t last, uint32_t totals[3]);

/* One address: *address = L(t), or M(k). L(t) of profile 5 is found by walking up to it, and M(k) of profile 5 in a whole list that is walked first; M(k)
   of profiles 8 and 9 by walking there, k being met after up to n steps; every other is reckoned at once. Refusals 1, 2, 3, 16, 11, 10, 4. */
uint32_t interleaver_address_l(const interleaver_set *set, uint32_t t, uint32_t *address);
uint32_t interleaver_address_m(const interleaver_set *set, uint32_t k, uint32_t *address);

/* A walk: the addresses of L, or of M, from *cell on, until out is full or no cell is left; begin with *cell = 0, and hand *cell on, until
   *written is below out_len: then the walk is at its end. A cell is a place of the list, or for profile 5 of a rectangle, where some cells are padding
   and have no address. *written is how many addresses were written, *cells how many cells were passed. The rest of out
   keeps what it held. Refusals of the walk for L 1, 2, 3, 16, 11, 10, 9; of the walk for M 1 (profiles 5, 8 and 9 too), 2, 3, 16, 9. */
uint32_t interleaver_walk_l(const interleaver_set *set, uint32_t *cell, uint16_t *out, size_t out_len, uint32_t *written, uint32_t *cells);
uint32_t interleaver_walk_m(const interleaver_set *set, uint32_t *cell, uint16_t *out, size_t out_len, uint32_t *written, uint32_t *cells);

/* A whole block from src into dst, each as long as the block has symbols: n, of profile 9 2n. No symbol is looked at; a float's 32 bits are copied.
   Refusals 1, 2, 3, 16, 11, 10, 5, 6. */
uint32_t interleaver_interleave_bytes(const interleaver_set *set, const uint8_t *src, size_t src_len, uint8_t *dst, size_t dst_len);
uint32_t interleaver_deinterleave_bytes(const interleaver_set *set, const uint8_t *src, size_t src_len, uint8_t *dst, size_t dst_len);
uint32_t interleaver_interleave_soft(const interleaver_set *set, const float *src, size_t src_len, float *dst, size_t dst_len);
uint32_t interleaver_deinterleave_soft(const interleaver_set *set, const float *src, size_t src_len, float *dst, size_t dst_len);

/* The same for symbols of `width` bytes each (any number, 0 too), src and dst width times as long: refusals 5 and 6 go by that. */
uint32_t interleaver_interleave_symbols(const interleaver_set *set, uint32_t width, const uint8_t *src, size_t src_len, uint8_t *dst,
                                        size_t dst_len);
uint32_t interleaver_deinterleave_symbols(const interleaver_set *set, uint32_t width, const uint8_t *src, size_t src_len, uint8_t *dst,
                                          size_t dst_len);

/* A received block added to what is stored. received is n soft values in output order, present n bytes: 1 where there is a value, 0 where there
   is a blank. sums and counts, n of each, are by input index: value t goes to L(t). A blank changes nothing; the first present value is stored
   with its bits unchanged, count 1; a later one is added with one rounding, and the count rises by one. Zero is a value. Before a first block
   every count is 0, and the sums may hold anything. A sum is exact while its values are whole eighths whose magnitudes total at most 2,097,152.
   Refusals 1 (profile 9 too), 2, 3, 16, 11, 10, 5, 6, 14, 13, 15, each decided over the whole block before the next. 13 looks at the sums where the
   block is blank too; it looks neither at a blank's value nor at a sum whose count is 0. */
uint32_t interleaver_add_received(const interleaver_set *set, const float *received, size_t received_len, const uint8_t *present,
                                  size_t present_len, float *sums, size_t sums_len, uint16_t *counts, size_t counts_len);

/* One position, by input index: *sum and *count are what it holds. At a blank, *count is 0, and *sum keeps what it held. A sum that isn't finite is
   read as it is. Refusals 1 (profile 9 too), 2, 3, 16, 11, 10, 4, 6. */
uint32_t interleaver_read_sum(const interleaver_set *set, const float *sums, size_t sums_len, const uint16_t *counts, size_t counts_len,
                              uint32_t position, float *sum, uint16_t *count);

/* A byte stream. Its state is a store, as long as its kind asks, and a record. A start, of either way, fills the store, and sets the record to that kind,
   branch 0 and places of 0. Refusals 9 (the kind), 7. */
uint32_t interleaver_stream_start(uint32_t kind, uint8_t *store, size_t store_len, uint8_t fill, interleaver_stream *stream);

/* Feeds of any length, as long out as in. A branch and places inside their ranges are taken as they stand. With b branches and steps of s bytes, counted
   from 0 at the start, byte a that a deinterleaver is fed comes out at place a + b*s*(b - 1 - a % b), so that two different ones less than b apart come
   out at least b*s - 1 apart: 203 for DVB, 207 for ATSC. Refusals 9 (the kind), 7, 9 (branch and places), 6. */
uint32_t interleaver_stream_interleave(interleaver_stream *stream, uint8_t *store, size_t store_len, const uint8_t *input, size_t input_len,
                                       uint8_t *out, size_t out_len);
uint32_t interleaver_stream_deinterleave(interleaver_stream *stream, uint8_t *store, size_t store_len, const uint8_t *input, size_t input_len,
                                         uint8_t *out, size_t out_len);

/* Plan files: lists of addresses, each with its parameter set, that are to be L. A file is the number of plans, 1 to 16; for each plan its profile, its
   bits, its n, the offset of its list from the file's start, and how many addresses the list has; then the lists. The numbers have 4 bytes, the
   addresses 2, all big end first. The lists follow the header and each other without gaps, to the file's end, and a file has at most 65,536 bytes:
   anything else is 12. A plan's profile is 1 to 5, its stream is 1.

   How many plans a file has. Refusal 12. */
uint32_t interleaver_plans(const uint8_t *file, size_t file_len, uint32_t *count);

/* One plan, counted from 1, beside L of its set: *wrong is how many positions are wrong, *first the first of them, counted from 0. A missing place, and a
   surplus one, is wrong. Both are 0 where the list is L. Refusals 12, 4, 1 (profiles 6 to 9 too), 2, 3. */
uint32_t interleaver_judge_plan(const uint8_t *file, size_t file_len, uint32_t plan, uint32_t *first, uint32_t *wrong);

/* The file of the lists L of some sets. sets is three numbers a set, profile, bits and n, and sets_len is how many numbers they are. The first call gives
   the file's length; the second writes the file, into a buffer of that length. Refusals 12 where the sets are not 1 to 16, or sets_len isn't three times
   as many; that of the first set that is refused, 1 (profiles 6 to 9 too), 2 or 3; 12 for a file above 65,536 bytes; and of the second call then 6. */
uint32_t interleaver_plans_length(const uint32_t *sets, size_t sets_len, uint32_t *bytes);
uint32_t interleaver_write_plans(const uint32_t *sets, size_t sets_len, uint8_t *out, size_t out_len);

#ifdef __cplusplus
}
#endif
#endif
