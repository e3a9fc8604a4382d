/* What the harness and the comparison of the sides share. */
#ifndef BENCH_H
#define BENCH_H
#include "plain.h"

enum { OURS, DIVIDE, STEP, SIDES };
enum kind { WALK, WRITTEN_OUT, SPATIAL, SPATIAL_M, LTE, COUPLES, BYTES, SOFT, SPATIAL_BYTES, LTE_BYTES, LTE_SOFT, COUPLES_BYTES, COUPLES_SOFT, DVB,
            DVB_BACK, ATSC, ATSC_BACK, JUDGE, WRITE, TOTALS, ADD, ADD_SOME, READ };
extern read_call *const reads[SIDES];
extern totals_call *const totals[SIDES];

/* A row: some sets in a row from the list of sets, the room of a walk (0: a whole block; NO_ROOM: none), or the length of a feed, or how many sizes
   from K 40 on are totalled. */
enum { NO_ROOM = 65536 };
struct row { enum kind kind; uint32_t from, sets, length; char name[80]; };
extern struct set sets[128];
extern struct row rows[128];

/* Lays them out. The rows from `shown` on are compared, and are not in the table. */
extern uint32_t row_count, shown;
void lay_out(void);

/* A row's byte stream: the number and the sizes of its kind, and whether it goes back. A null pointer where the row has none. */
struct stream { uint32_t number, branches, step, store; int back; };
const struct stream *stream_of(const struct row *);

/* What a side writes to. The input is the same for all. */
enum { LIST = 8192, BYTE = 65536, MOST = 5114 };
struct area {
    _Alignas(64) uint16_t list[LIST];
    _Alignas(64) uint8_t bytes[BYTE];
    _Alignas(64) uint8_t store[STORE];
    _Alignas(64) float sums[MOST];
    _Alignas(64) uint16_t counts[MOST];
    float sum;
    uint16_t count;
    uint32_t record[RECORD], cell, cells, turn;
    uint32_t first, wrong, plan, length; /* a judgement, the plan that is judged, and how long the file in bytes is */
    uint32_t totals[3];
};
extern struct area areas[SIDES];
extern uint8_t input[BYTE];

/* Received blocks, in whole eighths: one, and the same with the other sign, in turns, so that the sums stay where they are. Presence bytes: all 1,
   and a fifth of them 0. */
extern float received[2][MOST];
extern uint8_t present[2][MOST];
void receive(void);

/* Starts a side's stream, or its sums: 1 everywhere, of one value; or makes the file that it judges, of one plan, with its list as it is to be. */
void start(const struct row *, int side);

/* A row once, by one side: 0, or the number of a refusal. */
uint32_t once(const struct row *, int side);

/* Whether a side differs from ours in a row; then a line says where. */
int check(const struct row *);

#endif
