/* The harness: a row by one side, and its times; rows.c has the rows of the table, and check.c compares the sides. Every side is called through a pointer, across
   object files. bench/run starts it:
     bench rows                   a line for each row: its number, its addresses, bytes, values, positions, sizes or calls, its name
     bench check                  compares each side's output with ours; ends with one line and status 1 where one differs
     bench repeat ROW SIDE TIMES  runs one side of a row so often, to have its instructions counted
     bench time ROW ROUNDS MS     prints ours/dividing and ours/stepping: the best of so many rounds, each of at least so many milliseconds */
#include "bench.h"

walk_call interleaver_walk_l, interleaver_walk_m;
move_call interleaver_interleave_bytes, interleaver_interleave_soft;
add_call interleaver_add_received;
read_call interleaver_read_sum;
judge_call interleaver_judge_plan;
write_call interleaver_write_plans;
totals_call interleaver_wcdma_totals;
feed_call interleaver_stream_interleave, interleaver_stream_deinterleave;
uint32_t interleaver_stream_start(uint32_t kind, uint8_t *store, size_t, uint8_t fill, uint32_t *record);

static walk_call *const walks[][SIDES] = {
    [WALK] = {interleaver_walk_l, divide_walk, step_walk},
    [WRITTEN_OUT] = {interleaver_walk_l, divide_walk_written_out, step_walk_written_out},
    [SPATIAL] = {interleaver_walk_l, divide_spatial, step_spatial},
    [SPATIAL_M] = {interleaver_walk_m, divide_spatial_m, step_spatial_m},
    [LTE] = {interleaver_walk_l, divide_lte, step_lte},
    [COUPLES] = {interleaver_walk_l, divide_couples, step_couples},
};
static move_call *const moves[][SIDES] = {
    [BYTES] = {interleaver_interleave_bytes, divide_bytes, step_bytes},
    [SOFT] = {interleaver_interleave_soft, divide_soft, step_soft},
    [SPATIAL_BYTES] = {interleaver_interleave_bytes, divide_spatial_bytes, step_spatial_bytes},
    [LTE_BYTES] = {interleaver_interleave_bytes, divide_lte_bytes, step_lte_bytes},
    [LTE_SOFT] = {interleaver_interleave_soft, divide_lte_soft, step_lte_soft},
    [COUPLES_BYTES] = {interleaver_interleave_bytes, divide_couples_bytes, step_couples_bytes},
    [COUPLES_SOFT] = {interleaver_interleave_soft, divide_couples_soft, step_couples_soft},
};
static feed_call *const feeds[][SIDES] = {
    [DVB] = {interleaver_stream_interleave, divide_dvb, step_dvb},
    [DVB_BACK] = {interleaver_stream_deinterleave, divide_dvb_back, step_dvb_back},
    [ATSC] = {interleaver_stream_interleave, divide_atsc, step_atsc},
    [ATSC_BACK] = {interleaver_stream_deinterleave, divide_atsc_back, step_atsc_back},
};
static const struct stream streams[] = {
    [DVB] = {1, 12, 17, 1122, 0},
    [DVB_BACK] = {1, 12, 17, 1122, 1},
    [ATSC] = {2, 52, 4, 5304, 0},
    [ATSC_BACK] = {2, 52, 4, 5304, 1},
};

static add_call *const adds[SIDES] = {interleaver_add_received, divide_add, step_add};
read_call *const reads[SIDES] = {interleaver_read_sum, plain_read, plain_read};
static judge_call *const judges[SIDES] = {interleaver_judge_plan, divide_judge, step_judge};
static write_call *const writes[SIDES] = {interleaver_write_plans, divide_write, step_write};
totals_call *const totals[SIDES] = {interleaver_wcdma_totals, plain_totals, plain_totals};

struct area areas[SIDES];
_Alignas(64) uint8_t input[BYTE];
_Alignas(64) float received[2][MOST];
_Alignas(64) uint8_t present[2][MOST];

void receive(void)
{
    uint32_t x = 1;
    for (int t = 0; t < MOST; t++) {
        x = x * 1664525 + 1013904223;
        received[0][t] = (float)(int)(x >> 20) / 8 - 256;
        received[1][t] = -received[0][t];
        present[0][t] = 1;
        present[1][t] = (x >> 8 & 0xffff) % 5 != 0;
    }
}

/* The file of one plan: 24 bytes, then the list. */
static uint32_t write_set(write_call *write, const struct set *set, struct area *a)
{
    uint32_t numbers[3] = {set->profile, set->bits, set->n};
    return write(numbers, 3, a->bytes, 24 + 2 * set->n);
}

const struct stream *stream_of(const struct row *r) { return r->kind >= DVB && r->kind <= ATSC_BACK ? streams + r->kind : 0; }

void start(const struct row *r, int side)
{
    struct area *a = areas + side;
    const struct stream *stream = stream_of(r);
    a->turn = 0;
    if (r->kind >= ADD)
        for (uint32_t k = 0; k < sets[r->from].n; k++)
            a->sums[k] = 1, a->counts[k] = 1;
    if (r->kind == JUDGE) {
        write_set(divide_write, sets + r->from, a);
        a->plan = 1, a->length = 24 + 2 * sets[r->from].n;
    }
    if (stream == 0)
        return;
    memset(a->store, 7, stream->store);
    a->record[0] = a->record[1] = 0;
    if (side == STEP)
        step_start(a->record, stream->branches, stream->step, stream->back);
    if (side == OURS)
        interleaver_stream_start(stream->number, a->store, stream->store, 7, a->record);
}

static uint32_t walk_set(const struct row *r, walk_call *walk, const struct set *set, struct area *a)
{
    uint32_t at = 0, written = 1, refused = 0, room = r->length == NO_ROOM ? 0 : r->length != 0 ? r->length : set->n;
    a->cell = a->cells = 0;
    while (at < set->n && written != 0 && refused == 0) {
        uint32_t cells = 0;
        refused = walk(set, &a->cell, a->list + at, room, &written, &cells);
        at += written;
        a->cells += cells;
    }
    return refused;
}

/* A reception. The counts begin anew before one is full: that is so seldom that it is in no figure. */
static uint32_t add_block(const struct row *r, int side, const struct set *set, struct area *a)
{
    if (a->turn == 60000)
        start(r, side);
    return adds[side](set, received[a->turn++ % 2], set->n, present[r->kind == ADD_SOME], set->n, a->sums, set->n, a->counts, set->n);
}

/* Every position, a call for each. */
static uint32_t read_set(int side, const struct set *set, struct area *a)
{
    uint32_t refused = 0;
    for (uint32_t k = 0; k < set->n && refused == 0; k++)
        refused = reads[side](set, a->sums, set->n, a->counts, set->n, k, &a->sum, &a->count);
    return refused;
}

uint32_t once(const struct row *r, int side)
{
    struct area *a = areas + side;
    if (stream_of(r) != 0)
        return feeds[r->kind][side](a->record, a->store, streams[r->kind].store, input, r->length, a->bytes, r->length);
    if (r->kind == TOTALS)
        return totals[side](40, 39 + r->length, a->totals);
    uint32_t refused = 0;
    for (const struct set *s = sets + r->from; s < sets + r->from + r->sets && refused == 0; s++) {
        if (r->kind <= COUPLES)
            refused = walk_set(r, walks[r->kind][side], s, a);
        else if (r->kind == JUDGE)
            refused = judges[side](a->bytes, a->length, a->plan, &a->first, &a->wrong);
        else if (r->kind == WRITE)
            refused = write_set(writes[side], s, a);
        else if (r->kind == READ)
            refused = read_set(side, s, a);
        else if (r->kind >= ADD)
            refused = add_block(r, side, s, a);
        else
            refused = moves[r->kind][side](s, input, symbols_of(s), a->bytes, symbols_of(s));
    }
    return refused;
}

/* How many addresses, bytes, values, positions or sizes that makes; calls where there is no room. */
static uint32_t amount(const struct row *r)
{
    uint32_t sum = stream_of(r) != 0 || r->kind == TOTALS ? r->length : 0;
    for (uint32_t i = 0; i < r->sets; i++)
        sum += r->length == NO_ROOM ? 1 : r->kind <= COUPLES ? sets[r->from + i].n : symbols_of(sets + r->from + i);
    return sum;
}

/* In the processor's time of this process, so that another program's turn on the machine is not in it. */
static double batch(const struct row *r, int side, long times)
{
    struct timespec a, b;
    clock_gettime(CLOCK_PROCESS_CPUTIME_ID, &a);
    while (times-- > 0)
        once(r, side);
    clock_gettime(CLOCK_PROCESS_CPUTIME_ID, &b);
    return (double)(b.tv_sec - a.tv_sec) * 1e9 + (double)(b.tv_nsec - a.tv_nsec);
}

/* The sides take turns, so that a noisy moment does not fall on one alone. */
static void time_row(const struct row *r, int rounds, double ms)
{
    long times[SIDES];
    double best[SIDES] = {0, 0, 0};
    for (int side = 0; side < SIDES; side++) {
        times[side] = 1;
        while (batch(r, side, times[side]) < ms * 1e6)
            times[side] *= 2;
    }
    for (int round = 0; round < rounds; round++)
        for (int side = 0; side < SIDES; side++) {
            double each = batch(r, side, times[side]) / (double)times[side];
            if (round == 0 || each < best[side])
                best[side] = each;
        }
    printf("%.2f %.2f\n", best[OURS] / best[DIVIDE], best[OURS] / best[STEP]);
}

int main(int count, char **words)
{
    const char *task = count > 1 ? words[1] : "";
    int wrong = 0;
    lay_out();
    receive();
    if (strcmp(task, "rows") == 0)
        for (uint32_t i = 0; i < shown; i++)
            printf("%u %u %s\n", i, amount(rows + i), rows[i].name);
    else if (strcmp(task, "check") == 0)
        for (uint32_t i = 0; i < row_count && wrong == 0; i++)
            wrong = check(rows + i);
    else if (count == 5) {
        const struct row *r = rows + atoi(words[2]);
        int first = atoi(words[3]), second = atoi(words[4]);
        for (int side = 0; side < SIDES; side++)
            start(r, side);
        if (strcmp(task, "time") == 0)
            time_row(r, first, second);
        else
            while (second-- > 0)
                once(r, first);
    } else
        wrong = 2;
    return wrong;
}
