/* What the parts of the test share. */
#ifndef TEST_H
#define TEST_H
#include "interleaver.h"
#include <stdio.h>
#include <string.h>

#define EXPECT(ok) expect((ok), #ok, __FILE__, __LINE__)
void expect(int ok, const char *what, const char *file, int line);

/* a set without factors, one of profile 8, and one of profile 9 */
#define SET(profile, bits, n, stream) {profile, bits, n, stream, {0, 0, 0, 0}}
#define LTE(n, f1, f2) {8, 1, n, 1, {f1, f2, 0, 0}}
#define WIMAX(n, p0, p1, p2, p3) {9, 1, n, 1, {p0, p1, p2, p3}}

/* sets of every profile that are accepted, from SPATIAL on all of profiles 6 and 7, and sets that are refused, each with its number */
enum { SETS = 58, SPATIAL = 26, REFUSED = 53, MAX = INTERLEAVER_MAX_N };
extern const interleaver_set accepted[SETS];
extern const struct refused_set {
    interleaver_set set;
    uint32_t number;
} refused[REFUSED];

int walks_m(uint32_t profile); /* whether a profile has a walk for M: every one but 5, 8 and 9 */
int receives(uint32_t profile); /* whether a profile has receptions: every one but 9 */

/* L(t) and M(k) of an accepted set */
uint32_t at_l(interleaver_set set, uint32_t t);
uint32_t at_m(interleaver_set set, uint32_t k);

uint32_t quadratic(interleaver_set set, uint32_t t); /* L(t) of a set of profile 8, by its formula */
uint32_t next_k(uint32_t k); /* the size of profile 8 behind a listed one */
uint32_t couple_at(interleaver_set set, uint32_t j); /* L(j) of a set of profile 9, by its formula */

/* of an accepted set of profile 8 or 9, whose list is l: whether one walk with room for more than the list is the list, each cell with its address; that
   every walk for L and every single address is as the list; and of any set of these profiles that the walk for M is refused with 1, from any cell and with
   any room */
int walks_whole(interleaver_set set, const uint16_t *l);
void list_is(interleaver_set set, const uint16_t *l);
void no_walk_m(interleaver_set set);

int prime(uint32_t x); /* whether a number above 1 is prime, by trial division */

uint8_t byte_of(uint32_t i); /* a byte for each place */
int all_bytes(const uint8_t *p, size_t n, uint8_t x); /* whether n bytes are all x */
int all_addresses(const uint16_t *p, size_t n, uint16_t x); /* the same of addresses */

typedef uint32_t walk(const interleaver_set *, uint32_t *, uint16_t *, size_t, uint32_t *, uint32_t *);

/* Receptions: what is stored, between guards, and a copy of it from before a call. A sum and a value are given by their bits, position k is an
   input index, place t an output index. */
extern struct stored {
    uint8_t before[64];
    float sums[MAX + 1];
    uint8_t between[64];
    uint16_t counts[MAX + 1];
    uint8_t behind[64];
} now, kept;
extern uint8_t present[MAX + 1];

enum { ABSENT, PRESENT, FULL = 65535, SPOILT = 10 };
#define ONE 0x3f800000u
#define TWO 0x40000000u
#define FIVE 0x40a00000u
#define QUIET 0x7fc12345u
extern const uint32_t spoilt[SPOILT]; /* signalling and quiet NaNs of both signs, and the infinities */

uint32_t bits_of(const float *x);
void hold(uint32_t k, uint32_t sum, uint16_t count);
void hear(uint32_t t, uint32_t value, uint8_t there);
int holds(uint32_t k, uint32_t sum, uint16_t count);

/* the same at every position, and the same received at each */
void all(interleaver_set set, uint32_t sum, uint16_t count, uint32_t value, uint8_t there);

uint32_t add_with(interleaver_set set, const size_t *length); /* an add with lengths of their own: of received, present, sums and counts */
uint32_t add(interleaver_set set);
int same(void);

/* whether the add came to that at position k, and left everything else alone */
int adds(interleaver_set set, uint32_t k, uint32_t sum, uint16_t count);
uint32_t read_at(interleaver_set set, uint32_t position, uint32_t *sum, uint16_t *count);

/* the refusals of an accepted set, whose list is l, and those of the sets that are refused */
void sums_refused(interleaver_set set, const uint16_t *l);
void sums_of_refused_sets(void);

/* Plan files. A set is three numbers: profile, bits, N. */
enum { PLANS = INTERLEAVER_PLANS, ROOM = INTERLEAVER_PLAN_BYTES, ENTRY = 20, WCDMA_MAX = 5114 };
extern const uint32_t planned[PLANS][3]; /* accepted sets of profiles 1 to 5 */

void put_number(uint8_t *at, uint32_t x);
void put_address(uint8_t *at, uint32_t x);
uint32_t number_at(const uint8_t *at);
uint32_t address_at(const uint8_t *at);

/* L of an accepted set of profiles 1 to 5, by document 01's formulas and, of profile 5, by 3GPP TS 25.212 as it is printed */
void list_of(const uint32_t *set, uint16_t *list);

/* a file, byte by byte, and its length: of each plan so many addresses of L, and zeros behind L's end; N of each where counts is null */
size_t make_file(uint8_t *file, const uint32_t (*sets)[3], unsigned plans, const uint32_t *counts);

int judged(const uint8_t *file, size_t length, uint32_t plan, uint32_t first, uint32_t wrong); /* whether a plan is judged so */

/* Byte streams: both kinds, by their branches and steps, and what follows from these. */
enum { KINDS = 2, RINGS = 51, STORE_ROOM = INTERLEAVER_ATSC_STORE };
extern const struct stream_kind {
    uint32_t kind, branches, step, store, delay;
} kinds[KINDS];
typedef uint32_t feed(interleaver_stream *, uint8_t *, size_t, const uint8_t *, size_t, uint8_t *, size_t);
extern feed *const ways[2]; /* the interleaver's, the deinterleaver's */

uint32_t size_of(const struct stream_kind *k, uint32_t x); /* the bytes of ring x, and 0 where the kind has no such ring */

/* a record that is accepted, its places in the middle of their rings, for each seed another; and the one that a start sets */
interleaver_stream stand_at(const struct stream_kind *k, uint32_t branch, uint32_t seed);
interleaver_stream started(const struct stream_kind *k);

int same_stream(const interleaver_stream *a, const interleaver_stream *b); /* whether two records are the same 53 numbers */

void fitting(void);
void walks(void);
void spatial(void);
void lte(void);
void lte_refused(void);
void wimax(void);
void wimax_refused(void);
void order_of_refusals(void);
void bytes(void);
void floats(void);
void symbols(void);
void sums(void);
void streams(void);
void streams_refused(void);
void plans(void);
void plans_refused(void);
void plans_unwritten(void);
void report(void);
#endif
