/* The comparison of the sides: what each writes, says and reads beside ours. */
#include "bench.h"

static const char *const side_names[SIDES] = {"ours", "the C that divides", "the C that steps"};

/* The first byte in which a side's area is not as ours, without the record, which is each side's own; or -1. */
static long differs(int side)
{
    const uint8_t *got = (const uint8_t *)(areas + side), *ours = (const uint8_t *)(areas + OURS);
    for (size_t i = 0; i < sizeof(struct area); i++)
        if (got[i] != ours[i] && (i < offsetof(struct area, record) || i >= offsetof(struct area, cell)))
            return (long)i;
    return -1;
}

static int complain(const struct row *r, int side, long at)
{
    static const struct { size_t from; const char *name; } parts[] = {
        {offsetof(struct area, totals), "the totals"}, {offsetof(struct area, first), "the judgement"}, {offsetof(struct area, cell), "the cells"},
        {offsetof(struct area, sum), "the reading"}, {offsetof(struct area, counts), "the counts"}, {offsetof(struct area, sums), "the sums"},
        {offsetof(struct area, store), "the store"}, {offsetof(struct area, bytes), "the output"}};
    size_t i = (size_t)at, part = 0;
    if (i < offsetof(struct area, bytes))
        return printf("bench: %s: %s has address %u at place %zu, ours %u\n", r->name, side_names[side], areas[side].list[i / 2], i / 2,
                      areas[OURS].list[i / 2]), 1;
    while (i < parts[part].from)
        part++;
    return printf("bench: %s: %s differs from ours at byte %zu of %s\n", r->name, side_names[side], i - parts[part].from, parts[part].name), 1;
}

/* A row once by every side: whether one does not say the number, or leaves something else than ours. */
static int unlike(const struct row *r, uint32_t number)
{
    for (int side = 0; side < SIDES; side++) {
        uint32_t said = once(r, side);
        if (said != number)
            return printf("bench: %s: %s says %u, not %u\n", r->name, side_names[side], said, number), 1;
    }
    for (int side = DIVIDE; side < SIDES; side++)
        if (differs(side) >= 0)
            return complain(r, side, differs(side));
    return 0;
}

static void count_all(uint32_t n, uint16_t count)
{
    for (int side = 0; side < SIDES; side++)
        for (uint32_t k = 0; k < n; k++)
            areas[side].counts[k] = count;
}

/* First receptions too, where the counts are 0; then one fault upon the other: full counts, an infinity, a presence byte. Then blanks alone, which
   full counts bear, and an infinite sum does not. */
static int check_add(const struct row *r)
{
    uint32_t n = sets[r->from].n;
    count_all(n, 0);
    int wrong = unlike(r, 0) || unlike(r, 0);
    count_all(n, 65535);
    wrong = wrong || unlike(r, 15);
    received[0][n - 1] = received[1][n - 1] = __builtin_inff();
    present[0][n - 1] = present[1][n - 1] = 1;
    wrong = wrong || unlike(r, 13);
    present[0][n - 1] = present[1][n - 1] = 2;
    wrong = wrong || unlike(r, 14);
    memset(present, 0, sizeof present);
    wrong = wrong || unlike(r, 0);
    for (int side = 0; side < SIDES; side++)
        areas[side].sums[n / 2] = __builtin_inff();
    wrong = wrong || unlike(r, 13);
    receive();
    return wrong;
}

/* Each position by itself, every third a blank. */
static int check_read(const struct row *r)
{
    const struct set *s = sets + r->from;
    for (uint32_t k = 0; k < s->n; k++)
        for (int side = 0; side < SIDES; side++) {
            struct area *a = areas + side;
            a->sums[k] = k, a->counts[k] = k % 3;
            if (reads[side](s, a->sums, s->n, a->counts, s->n, k, &a->sum, &a->count) != 0 || a->sum != areas[OURS].sum ||
                a->count != areas[OURS].count)
                return printf("bench: %s: %s reads position %u otherwise than ours\n", r->name, side_names[side], k), 1;
        }
    return 0;
}

/* A number of every side's file, and the plan that every side is asked for. */
static void put_number(uint32_t at, uint32_t x)
{
    for (int side = 0; side < SIDES; side++)
        for (int i = 0; i < 4; i++)
            areas[side].bytes[at + i] = (uint8_t)(x >> (24 - 8 * i));
}

static void ask(uint32_t plan, uint32_t length)
{
    for (int side = 0; side < SIDES; side++)
        areas[side].plan = plan, areas[side].length = length;
}

/* A row once by every side, and whether ours judges so. */
static int misjudged(const struct row *r, uint32_t first, uint32_t wrong)
{
    const struct area *a = areas + OURS;
    if (unlike(r, 0))
        return 1;
    if (a->first == first && a->wrong == wrong)
        return 0;
    return printf("bench: %s: ours says %u wrong from %u on, not %u from %u\n", r->name, a->wrong, a->first, wrong, first), 1;
}

/* The list as it is, one place short, one long, and with two addresses changed; then plans that there aren't, a file cut short, and other sets. */
static int check_judge(const struct row *r)
{
    const struct set *s = sets + r->from;
    uint32_t n = s->n, length = 24 + 2 * n;
    int wrong = misjudged(r, 0, 0);
    ask(1, length - 2), put_number(20, n - 1);
    wrong = wrong || misjudged(r, n - 1, 1);
    ask(1, length + 2), put_number(20, n + 1);
    wrong = wrong || misjudged(r, n, 1);
    ask(1, length), put_number(20, n);
    for (int side = 0; side < SIDES; side++)
        areas[side].bytes[24 + 2 * (n / 2)] ^= 128, areas[side].bytes[24 + 2 * (n - 1) + 1] ^= 1;
    wrong = wrong || misjudged(r, n / 2, 2);
    ask(0, length);
    wrong = wrong || unlike(r, 4);
    ask(2, length);
    wrong = wrong || unlike(r, 4);
    ask(2, length - 1);
    wrong = wrong || unlike(r, 12);
    ask(1, length), put_number(12, 7);
    wrong = wrong || unlike(r, 3);
    put_number(8, 3);
    wrong = wrong || unlike(r, 2);
    put_number(4, 6);
    return wrong || unlike(r, 1);
}

/* Our record beside the stepping C's: the kind, the branch of its ring, and each ring's place without where the ring begins; 0 behind them. */
static int check_record(const struct row *r)
{
    const struct stream *s = stream_of(r);
    const uint32_t *ours = areas[OURS].record, *step = areas[STEP].record;
    uint32_t branch = s->back ? s->branches - 1 - step[0] : step[0], same = ours[0] == s->number && ours[1] == branch;
    for (uint32_t x = 1; x < RECORD - 1; x++)
        same = same && ours[x + 1] == (x < s->branches ? step[x] - s->step * x * (x - 1) / 2 : 0);
    return same ? 0 : (printf("bench: %s: our record is not where the stepping C's is\n", r->name), 1);
}

/* Each size by itself. */
static int check_totals(const struct row *r)
{
    for (uint32_t k = 40; k <= 5114; k++)
        for (int side = 0; side < SIDES; side++) {
            uint32_t *got = areas[side].totals, *ours = areas[OURS].totals;
            if (totals[side](k, k, got) != 0 || got[0] != ours[0] || got[1] != ours[1] || got[2] != ours[2])
                return printf("bench: %s: %s has other figures of K %u than ours\n", r->name, side_names[side], k), 1;
        }
    return 0;
}

/* Each set of a row by itself, and of a stream a few short feeds first, so that a feed begins in the middle; of totals a few short ranges. */
int check(const struct row *whole)
{
    static const uint32_t before[] = {1, 5, 203, 24, 1999, 0};
    uint32_t parts = whole->sets != 0 ? whole->sets : sizeof before / sizeof *before;
    for (uint32_t i = 0, x = 1; i < BYTE; i++, x = x * 1664525 + 1013904223)
        input[i] = (uint8_t)(x >> 24);
    memset(areas, 0xa5, sizeof areas); /* so that what is not to be written shows */
    for (int side = 0; side < SIDES; side++)
        start(whole, side);
    for (uint32_t i = 0; i < parts; i++) {
        struct row r = *whole;
        if (whole->sets != 0)
            r.from += i, r.sets = 1;
        else if (before[i] != 0)
            r.length = before[i];
        if (r.kind == JUDGE)
            for (int side = 0; side < SIDES; side++)
                start(&r, side);
        if (r.kind == JUDGE ? check_judge(&r) : unlike(&r, 0) || (stream_of(&r) != 0 && check_record(&r)))
            return 1;
    }
    return whole->kind == TOTALS ? check_totals(whole) : whole->kind == READ ? check_read(whole) : whole->kind >= ADD ? check_add(whole) : 0;
}
