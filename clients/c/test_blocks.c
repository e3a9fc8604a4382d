/* Whole blocks of bytes, of floats and of symbols of any width, moved there and back. */
#include "test.h"

/* the input symbol of each output symbol, by the walk for L. Of profile 9 that gives couples: an odd one is its B, its A */
static void sources(interleaver_set set, uint16_t *l) {
    uint32_t cell = 0, written, cells, j;
    EXPECT(interleaver_walk_l(&set, &cell, l, set.n, &written, &cells) == 0);
    for (j = set.profile == 9 ? set.n : 0; j-- > 0;) { /* from the last on, since each becomes two */
        uint32_t c = l[j], odd = c % 2;
        l[2 * j] = (uint16_t)(2 * c + odd);
        l[2 * j + 1] = (uint16_t)(2 * c + 1 - odd);
    }
}

void bytes(void) {
    static uint8_t src[MAX + 1], dst[MAX + 1], back[MAX + 1];
    static uint16_t l[MAX];
    unsigned i, t, wrong;
    for (i = 0; i < SETS; i++) {
        interleaver_set set = accepted[i];
        size_t n = interleaver_symbols(&set);
        for (t = 0; t < n; t++)
            src[t] = byte_of(t);
        memset(dst, 99, sizeof dst);
        memset(back, 98, sizeof back);
        EXPECT(interleaver_interleave_bytes(&set, src, n - 1, dst, n - 1) == INTERLEAVER_INPUT);
        EXPECT(interleaver_interleave_bytes(&set, src, n, dst, n + 1) == INTERLEAVER_OUTPUT);
        EXPECT(interleaver_deinterleave_bytes(&set, src, n + 1, dst, n + 1) == INTERLEAVER_INPUT);
        EXPECT(interleaver_deinterleave_bytes(&set, src, n, dst, n - 1) == INTERLEAVER_OUTPUT);
        EXPECT(interleaver_interleave_bytes(&set, src, 0, dst, 0) == INTERLEAVER_INPUT);
        EXPECT(all_bytes(dst, sizeof dst, 99));
        EXPECT(interleaver_interleave_bytes(&set, src, n, dst, n) == 0 && dst[n] == 99);
        sources(set, l);
        for (wrong = 0, t = 0; t < n; t++)
            wrong += dst[t] != src[l[t]];
        EXPECT(wrong == 0);
        EXPECT(interleaver_deinterleave_bytes(&set, dst, n, back, n) == 0 && back[n] == 98);
        EXPECT(memcmp(back, src, n) == 0);
    }
    memset(dst, 99, sizeof dst);
    for (i = 0; i < REFUSED; i++) {
        EXPECT(interleaver_interleave_bytes(&refused[i].set, src, 192, dst, 192) == refused[i].number);
        EXPECT(interleaver_deinterleave_bytes(&refused[i].set, src, 192, dst, 192) == refused[i].number);
    }
    EXPECT(all_bytes(dst, sizeof dst, 99));
}

/* every kind of float: NaNs with payloads, signalling and quiet, of both signs, minus zero, denormals, and any */
static uint32_t pattern(uint32_t i, uint32_t x) {
    switch (i % 7) {
    case 0: return 0x7f800001u | x >> 10; /* signalling or quiet, by bit 22 of the payload */
    case 1: return 0xff800001u | (x >> 11 & 0x3fffffu); /* signalling */
    case 2: return 0xffc00000u | x >> 11; /* quiet */
    case 3: return 0x80000000u;
    case 4: return x >> 9; /* a denormal */
    case 5: return 0;
    default: return x;
    }
}

void floats(void) {
    static uint32_t bits[MAX], moved[MAX], again[MAX];
    static float src[MAX], dst[MAX], back[MAX];
    static uint16_t l[MAX];
    uint32_t x = 1;
    unsigned i, t, wrong;
    for (i = 0; i < SETS; i++) {
        interleaver_set set = accepted[i];
        size_t n = interleaver_symbols(&set), size = n * sizeof src[0];
        for (t = 0; t < n; t++)
            bits[t] = pattern(t, x = x * 1664525u + 1013904223u);
        memcpy(src, bits, size);
        memset(dst, 99, sizeof dst);
        EXPECT(interleaver_interleave_soft(&set, src, n - 1, dst, n) == INTERLEAVER_INPUT);
        EXPECT(interleaver_interleave_soft(&set, src, n, dst, n - 1) == INTERLEAVER_OUTPUT);
        EXPECT(interleaver_deinterleave_soft(&set, src, n - 1, dst, n) == INTERLEAVER_INPUT);
        EXPECT(interleaver_deinterleave_soft(&set, src, n, dst, n - 1) == INTERLEAVER_OUTPUT);
        EXPECT(all_bytes((const uint8_t *)dst, sizeof dst, 99));
        EXPECT(interleaver_interleave_soft(&set, src, n, dst, n) == 0);
        sources(set, l);
        memcpy(moved, dst, size);
        for (wrong = 0, t = 0; t < n; t++)
            wrong += moved[t] != bits[l[t]];
        EXPECT(wrong == 0);
        EXPECT(interleaver_deinterleave_soft(&set, dst, n, back, n) == 0);
        memcpy(again, back, size);
        EXPECT(memcmp(again, bits, size) == 0);
    }
    memset(dst, 99, sizeof dst);
    for (i = 0; i < REFUSED; i++) {
        EXPECT(interleaver_interleave_soft(&refused[i].set, src, 192, dst, 192) == refused[i].number);
        EXPECT(interleaver_deinterleave_soft(&refused[i].set, src, 192, dst, 192) == refused[i].number);
    }
    EXPECT(all_bytes((const uint8_t *)dst, sizeof dst, 99));
}

/* symbols of w bytes: byte b of output symbol t is byte b of its input symbol */
static void of_width(interleaver_set set, unsigned w) {
    static uint8_t src[MAX * 9 + 1], dst[MAX * 9 + 1], back[MAX * 9 + 1];
    static uint16_t l[MAX];
    size_t size = interleaver_symbols(&set) * w;
    unsigned i, wrong;
    for (i = 0; i < size; i++)
        src[i] = byte_of(i);
    memset(dst, 99, sizeof dst);
    EXPECT(interleaver_interleave_symbols(&set, w, src, size + 1, dst, size) == INTERLEAVER_INPUT);
    EXPECT(interleaver_interleave_symbols(&set, w, src, size, dst, size + 1) == INTERLEAVER_OUTPUT);
    EXPECT(interleaver_deinterleave_symbols(&set, w, src, size + 1, dst, size) == INTERLEAVER_INPUT);
    EXPECT(interleaver_deinterleave_symbols(&set, w, src, size, dst, size + 1) == INTERLEAVER_OUTPUT);
    EXPECT(all_bytes(dst, sizeof dst, 99));
    EXPECT(interleaver_interleave_symbols(&set, w, src, size, dst, size) == 0 && dst[size] == 99);
    sources(set, l);
    for (wrong = 0, i = 0; i < size; i++)
        wrong += dst[i] != src[l[i / w] * w + i % w];
    EXPECT(wrong == 0);
    EXPECT(interleaver_deinterleave_symbols(&set, w, dst, size, back, size) == 0);
    EXPECT(memcmp(back, src, size) == 0);
}

void symbols(void) {
    uint8_t src[768], dst[768];
    unsigned i, w;
    for (i = 0; i < SETS; i++)
        for (w = 0; w < 10; w++)
            of_width(accepted[i], w);
    memset(src, 1, sizeof src);
    memset(dst, 99, sizeof dst);
    for (i = 0; i < REFUSED; i++) {
        EXPECT(interleaver_interleave_symbols(&refused[i].set, 4, src, 768, dst, 768) == refused[i].number);
        EXPECT(interleaver_deinterleave_symbols(&refused[i].set, 4, src, 768, dst, 768) == refused[i].number);
    }
    EXPECT(all_bytes(dst, sizeof dst, 99));
}
