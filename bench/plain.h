/* What the two plain C's offer, in the same call shapes as the proved library: `divide_` works each address or byte out by document 01's
   formula, `step_` keeps counters. Neither tests its input, but where receptions are added up or read, and in plan files. `_written_out` is the
   same C with d and s as constants of the compiler; `_spatial` serves profiles 6 and 7, `_lte` profile 8, `_couples` profile 9, and
   the others do not. */
#ifndef PLAIN_H
#define PLAIN_H

#ifdef NO_HEADERS /* the kit has a compiler and a C library, and no headers */
typedef __UINT8_TYPE__ uint8_t;
typedef __UINT16_TYPE__ uint16_t;
typedef __UINT32_TYPE__ uint32_t;
typedef __UINT64_TYPE__ uint64_t;
typedef __SIZE_TYPE__ size_t;
#define offsetof(type, part) __builtin_offsetof(type, part)
struct timespec { long tv_sec, tv_nsec; };
enum { CLOCK_PROCESS_CPUTIME_ID = 2 };
int clock_gettime(int, struct timespec *);
int printf(const char *, ...);
int snprintf(char *, size_t, const char *, ...);
int atoi(const char *);
int strcmp(const char *, const char *);
void *memcpy(void *, const void *, size_t);
void *memset(void *, int, size_t);
#else
#include <stddef.h>
#include <stdint.h>
#include <stdio.h>
#include <stdlib.h>
#include <string.h>
#include <time.h>
#endif

#define INLINE static inline __attribute__((always_inline))

struct set { uint32_t profile, bits, n, stream, factors[4]; };

/* From *cell on, as far as there is room and cells; moves *cell on, and says how many addresses were written and cells examined. */
typedef uint32_t walk_call(const struct set *, uint32_t *cell, uint16_t *out, size_t room, uint32_t *written, uint32_t *cells);
walk_call divide_walk, divide_walk_written_out, step_walk, step_walk_written_out;
walk_call divide_spatial, step_spatial, divide_spatial_m, step_spatial_m; /* for L, and for M */
walk_call divide_lte, step_lte, divide_couples, step_couples;

/* How many symbols a block has. */
INLINE uint32_t symbols_of(const struct set *set) { return set->profile == 9 ? 2 * set->n : set->n; }

/* dst[t] = src[L(t)], of bytes or of f32; of profile 9 two of them for each address, swapped where the address is odd. */
typedef uint32_t move_call(const struct set *, const void *src, size_t, void *dst, size_t);
move_call divide_bytes, divide_soft, step_bytes, step_soft, divide_spatial_bytes, step_spatial_bytes;
move_call divide_lte_bytes, divide_lte_soft, step_lte_bytes, step_lte_soft;
move_call divide_couples_bytes, divide_couples_soft, step_couples_bytes, step_couples_soft;
#define MOVE(name, move, size) \
    uint32_t name(const struct set *set, const void *src, size_t a, void *dst, size_t b) { return (void)a, (void)b, move(set, size, src, dst); }

/* A received block added to what is stored, value t at L(t), with the tests of the library; and a position read, which takes no address. */
typedef uint32_t add_call(const struct set *, const float *received, size_t, const uint8_t *present, size_t, float *sums, size_t, uint16_t *counts,
                          size_t);
add_call divide_add, step_add;
typedef uint32_t read_call(const struct set *, const float *sums, size_t, const uint16_t *counts, size_t, uint32_t position, float *sum,
                           uint16_t *count);
read_call plain_read;

/* A plan of a file beside L: the first wrong position, and how many are wrong; and the file of some sets, three numbers each. With the tests of the
   library. */
typedef uint32_t judge_call(const uint8_t *file, size_t, uint32_t plan, uint32_t *first, uint32_t *wrong);
judge_call divide_judge, step_judge;
typedef uint32_t write_call(const uint32_t *sets, size_t, uint8_t *out, size_t);
write_call divide_write, step_write;

/* A feed of a byte stream, of either kind, by the interleaver or back. What the record holds is each side's own: ours its 53 numbers, `divide_` a count of
   bytes in two numbers, from 0, `step_` the ring to come and a place for each ring. */
enum { STORE = 5304, RECORD = 53 };
typedef uint32_t feed_call(uint32_t *record, uint8_t *store, size_t, const uint8_t *in, size_t, uint8_t *out, size_t);
feed_call divide_dvb, divide_dvb_back, divide_atsc, divide_atsc_back, step_dvb, step_dvb_back, step_atsc, step_atsc_back;
void step_start(uint32_t *record, uint32_t branches, uint32_t step, int back);

/* The padding report's totals from a first K to a last: how many sizes, their cells and their padding. */
typedef uint32_t totals_call(uint32_t first, uint32_t last, uint32_t *totals);
totals_call plain_totals;

#endif
