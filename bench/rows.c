/* The sets that are measured, and the rows of the table over them. */
#include "bench.h"

struct set sets[128];
struct row rows[128];
uint32_t row_count, shown;
static uint32_t set_count;

static void add_set(uint32_t profile, uint32_t bits, uint32_t n, uint32_t stream)
{
    sets[set_count++] = (struct set){profile, bits, n, stream, {0}};
}

static void add_lte(uint32_t k, uint32_t f1, uint32_t f2) { sets[set_count++] = (struct set){8, 1, k, 1, {f1, f2}}; }

static void add_couples(uint32_t n, uint32_t p0, uint32_t p1, uint32_t p2, uint32_t p3)
{
    sets[set_count++] = (struct set){9, 1, n, 1, {p0, p1, p2, p3}};
}

static void add_row(enum kind kind, uint32_t from, uint32_t count, uint32_t length, const char *name, const char *more)
{
    const struct set *s = sets + from;
    struct row *r = rows + row_count++;
    *r = (struct row){.kind = kind, .from = from, .sets = count, .length = length};
    if (count == 1)
        snprintf(r->name, sizeof r->name, "%s %u/%u/%u%s", name, s->profile, s->bits, s->n, more);
    else
        snprintf(r->name, sizeof r->name, "%s%s", name, more);
}

void lay_out(void)
{
    static const uint8_t bits[] = {1, 2, 4, 6};
    for (int b = 0; b < 4; b++)
        for (uint32_t w = 1; w <= 16; w *= 2)
            add_set(1, bits[b], 12 * bits[b] * w, 1);
    for (int b = 0; b < 4; b++)
        add_set(3, bits[b], 48 * bits[b], 1);
    add_set(5, 1, 40, 1);
    add_set(5, 1, 5114, 1);
    enum { OFDM_2_384 = 9, OFDM_4_768 = 14, OFDM_6_1152 = 19, WLAN = 20, WLAN_1_48 = 20, WLAN_6_288 = 23, TURBO_40, TURBO_5114 };
    for (uint32_t i = 0; i < TURBO_40; i++)
        add_row(WALK, i, 1, 0, "walk", "");
    add_row(WALK, 0, WLAN, 0, "walk, the 20 sets of profile 1", "");
    add_row(WALK, WLAN, 4, 0, "walk, the 4 sets of profile 3", "");
    add_row(WALK, OFDM_6_1152, 1, 1024, "walk", ", slices of 1024");
    add_row(WALK, TURBO_40, 1, 0, "walk", "");
    add_row(WALK, TURBO_5114, 1, 0, "walk", "");
    add_row(WALK, TURBO_5114, 1, 1024, "walk", ", slices of 1024");
    add_row(WALK, TURBO_40, 1, NO_ROOM, "walk", ", no room");
    add_row(WALK, TURBO_5114, 1, NO_ROOM, "walk", ", no room");
    add_row(WRITTEN_OUT, OFDM_2_384, 1, 0, "walk", ", C written out for s = 1");
    add_row(WRITTEN_OUT, OFDM_4_768, 1, 0, "walk", ", C written out for s = 2");
    add_row(WRITTEN_OUT, OFDM_6_1152, 1, 0, "walk", ", C written out for s = 3");
    static const uint32_t blocks[] = {WLAN_1_48, WLAN_6_288, OFDM_6_1152, TURBO_40, TURBO_5114};
    for (int i = 0; i < 10; i++)
        add_row(i < 5 ? BYTES : SOFT, blocks[i % 5], 1, 0, i < 5 ? "interleave bytes" : "interleave f32", "");
    static const char *const streams[] = {"DVB interleaver", "DVB deinterleaver", "ATSC interleaver", "ATSC deinterleaver"};
    for (int i = 0; i < 4; i++) {
        add_row(DVB + i, 0, 0, i < 2 ? 204 : 207, streams[i], i < 2 ? ", feeds of 204" : ", feeds of 207");
        add_row(DVB + i, 0, 0, i < 2 ? 65280 : 65520, streams[i], i < 2 ? ", feeds of 65280" : ", feeds of 65520");
    }
    add_row(ADD, OFDM_6_1152, 1, 0, "add", "");
    add_row(ADD_SOME, OFDM_6_1152, 1, 0, "add", ", a fifth blank");
    add_row(ADD, WLAN_6_288, 1, 0, "add", "");
    add_row(ADD, TURBO_5114, 1, 0, "add", "");
    add_row(READ, WLAN_6_288, 1, 0, "read", "");
    for (uint32_t i = 0; i < 32; i++)
        add_set(6 + i / 16, bits[i / 4 % 4], (i < 16 ? 52 : 108) * bits[i / 4 % 4], 1 + i % 4);
    enum { HT = TURBO_5114 + 1, HT20_1_52_2 = HT + 1, HT40_6_648_1 = HT + 28, HT40_6_648_4 = HT + 31 };
    add_row(SPATIAL, HT20_1_52_2, 1, 0, "walk", ", stream 2");
    add_row(SPATIAL, HT40_6_648_1, 1, 0, "walk", ", stream 1");
    add_row(SPATIAL, HT40_6_648_4, 1, 0, "walk", ", stream 4");
    add_row(SPATIAL_M, HT40_6_648_4, 1, 0, "walk for M", ", stream 4");
    add_row(SPATIAL_BYTES, HT20_1_52_2, 1, 0, "interleave bytes", ", stream 2");
    add_row(SPATIAL_BYTES, HT40_6_648_4, 1, 0, "interleave bytes", ", stream 4");
    enum { QUADRATIC = HT + 32, QUADRATIC_40 = QUADRATIC, QUADRATIC_512, QUADRATIC_4800, QUADRATIC_6144, QUADRATICS = 7 };
    add_lte(40, 3, 10);
    add_lte(512, 31, 64);
    add_lte(4800, 71, 120); /* as many symbols as 2,400 couples */
    add_lte(6144, 263, 480);
    add_lte(40, 39, 30); /* twice 30 passes 40 */
    add_lte(1024, 31, 64);
    add_lte(6144, 6143, 6138); /* the largest products */
    add_row(LTE, QUADRATIC_40, 1, 0, "walk", "");
    add_row(LTE, QUADRATIC_512, 1, 0, "walk", "");
    add_row(LTE, QUADRATIC_6144, 1, 0, "walk", "");
    add_row(LTE, QUADRATIC_6144, 1, 1024, "walk", ", slices of 1024");
    add_row(LTE, QUADRATIC_40, 1, NO_ROOM, "walk", ", no room");
    add_row(LTE, QUADRATIC_6144, 1, NO_ROOM, "walk", ", no room");
    add_row(LTE_BYTES, QUADRATIC_4800, 1, 0, "interleave bytes", "");
    add_row(LTE_BYTES, QUADRATIC_6144, 1, 0, "interleave bytes", "");
    add_row(LTE_SOFT, QUADRATIC_4800, 1, 0, "interleave f32", "");
    add_row(LTE_SOFT, QUADRATIC_6144, 1, 0, "interleave f32", "");
    enum { COUPLED = QUADRATIC + QUADRATICS, COUPLED_24 = COUPLED, COUPLED_240, COUPLED_2400, COUPLEDS = 6 };
    add_couples(24, 5, 0, 0, 0);
    add_couples(240, 13, 120, 60, 180);
    add_couples(2400, 53, 66, 24, 2);
    add_couples(28, 2, 1, 2, 3); /* an even P0 */
    add_couples(96, 7, 48, 24, 72);
    add_couples(2400, 2399, 2399, 2399, 2398); /* the largest products */
    add_row(COUPLES, COUPLED_24, 1, 0, "walk", "");
    add_row(COUPLES, COUPLED_240, 1, 0, "walk", "");
    add_row(COUPLES, COUPLED_2400, 1, 0, "walk", "");
    add_row(COUPLES, COUPLED_2400, 1, 1024, "walk", ", slices of 1024");
    add_row(COUPLES, COUPLED_24, 1, NO_ROOM, "walk", ", no room");
    add_row(COUPLES, COUPLED_2400, 1, NO_ROOM, "walk", ", no room");
    add_row(COUPLES_BYTES, COUPLED_2400, 1, 0, "interleave bytes", "");
    add_row(COUPLES_SOFT, COUPLED_2400, 1, 0, "interleave f32", "");
    add_row(JUDGE, WLAN_6_288, 1, 0, "judge a plan", "");
    add_row(JUDGE, TURBO_5114, 1, 0, "judge a plan", "");
    add_row(WRITE, WLAN_6_288, 1, 0, "write a plan", "");
    add_row(WRITE, TURBO_5114, 1, 0, "write a plan", "");
    add_row(TOTALS, 0, 0, 5075, "totals of the padding report", "");
    shown = row_count;
    for (int i = 0; i < 4; i++)
        add_row(i < 2 ? SPATIAL : SPATIAL_M, HT, 32, i % 2 * 7, i < 2 ? "walk, profiles 6 and 7" : "walk for M, profiles 6 and 7",
                i % 2 == 0 ? "" : ", slices of 7");
    add_row(SPATIAL_BYTES, HT, 32, 0, "interleave bytes, profiles 6 and 7", "");
    add_row(LTE, QUADRATIC, QUADRATICS, 0, "walk, profile 8", "");
    add_row(LTE, QUADRATIC, QUADRATICS, 7, "walk, profile 8", ", slices of 7");
    add_row(LTE_BYTES, QUADRATIC, QUADRATICS, 0, "interleave bytes, profile 8", "");
    add_row(LTE_SOFT, QUADRATIC, QUADRATICS, 0, "interleave f32, profile 8", "");
    add_row(COUPLES, COUPLED, COUPLEDS, 0, "walk, profile 9", "");
    add_row(COUPLES, COUPLED, COUPLEDS, 7, "walk, profile 9", ", slices of 7");
    add_row(COUPLES_BYTES, COUPLED, COUPLEDS, 0, "interleave bytes, profile 9", "");
    add_row(COUPLES_SOFT, COUPLED, COUPLEDS, 0, "interleave f32, profile 9", "");
    static const uint32_t full[] = {40, 200, 5040};
    for (int i = 0; i < 3; i++)
        add_set(5, 1, full[i], 1);
    add_row(WALK, COUPLED + COUPLEDS, 3, 0, "walk, full rectangles", "");
    add_row(WALK, COUPLED + COUPLEDS, 3, 7, "walk, full rectangles", ", slices of 7");
    add_row(JUDGE, 0, HT, 0, "judge a plan, profiles 1, 3 and 5", "");
    add_row(WRITE, 0, HT, 0, "write a plan, profiles 1, 3 and 5", "");
}
