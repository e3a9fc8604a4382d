/* Lists of profiles 8 and 9 beside one worked out by the formula: walks whole, in slices from any cell, single addresses there and back, and the walk for
   M, which these profiles do not have. */
#include "test.h"

#define FAR 4294967295u

int walks_whole(interleaver_set set, const uint16_t *l) {
    static uint16_t out[MAX + 1];
    uint32_t cell = 0, written = 9, cells = 9;
    memset(out, 0xee, sizeof out);
    return interleaver_walk_l(&set, &cell, out, set.n + 1, &written, &cells) == INTERLEAVER_DONE && cell == set.n && written == set.n &&
           cells == set.n && memcmp(out, l, 2 * set.n) == 0 && out[set.n] == 0xeeee;
}

/* walks that are refused, and change nothing. A first factor of 2 (profile 8) or of 0 (profile 9) gives two positions one address */
static int refuses(interleaver_set set, uint32_t cell, uint16_t *out, size_t room) {
    interleaver_set shared = set, large = set;
    uint32_t past = set.n + 1, written = 9, cells = 9, from = cell;
    shared.factors[0] = set.profile == 8 ? 2 : 0;
    large.factors[1] = set.n;
    return interleaver_walk_l(&set, &past, out, room, &written, &cells) == INTERLEAVER_RECORD &&
           interleaver_walk_l(&shared, &cell, out, room, &written, &cells) == INTERLEAVER_SHARED &&
           interleaver_walk_l(&large, &cell, out, room, &written, &cells) == INTERLEAVER_FACTORS &&
           interleaver_walk_m(&set, &cell, out, room, &written, &cells) == INTERLEAVER_PROFILE && past == set.n + 1 && cell == from &&
           written == 9 && cells == 9 && all_addresses(out, room, 0xeeee);
}

/* whether a walk from a cell to the end, in slices of one length with refused walks between, is the rest of the list */
static int walks_sliced(interleaver_set set, const uint16_t *l, uint32_t from, uint32_t room) {
    static uint16_t out[MAX + 32];
    uint32_t cell = from, at = 0, written = room, cells;
    memset(out, 0xee, sizeof out);
    while (written == room) {
        uint32_t left = set.n - cell, before = cell, want = room < left ? room : left;
        if (!refuses(set, cell, out + at, room) || interleaver_walk_l(&set, &cell, out + at, room, &written, &cells) != INTERLEAVER_DONE)
            return 0;
        if (written != want || cells != want || cell != before + want)
            return 0;
        at += written;
    }
    return cell == set.n && memcmp(out, l + from, 2 * at) == 0 && all_addresses(out + at, 16, 0xeeee);
}

static int there_and_back(interleaver_set set, const uint16_t *l, uint32_t t) {
    uint32_t address = FAR, place = FAR;
    return interleaver_address_l(&set, t, &address) == INTERLEAVER_DONE && address == l[t] &&
           interleaver_address_m(&set, address, &place) == INTERLEAVER_DONE && place == t;
}

/* at n and past it there is no address */
static void no_address(interleaver_set set) {
    uint32_t past[] = {set.n, set.n + 1, 65536, FAR}, address = 77;
    unsigned i;
    for (i = 0; i < 4; i++) {
        EXPECT(interleaver_address_l(&set, past[i], &address) == INTERLEAVER_POSITION && address == 77);
        EXPECT(interleaver_address_m(&set, past[i], &address) == INTERLEAVER_POSITION && address == 77);
    }
}

void list_is(interleaver_set set, const uint16_t *l) {
    static const uint32_t rooms[] = {1, 4, 7, 13};
    unsigned j, t, wrong;
    EXPECT(walks_whole(set, l));
    for (wrong = 0, t = 0; t < set.n; t++)
        wrong += !there_and_back(set, l, t);
    EXPECT(wrong == 0);
    no_address(set);
    for (wrong = 0, j = 0; j < sizeof rooms / sizeof rooms[0]; j++)
        for (t = 0; t <= set.n; t++)
            if (set.n <= 96 || t % (set.n / 7) == 0 || set.n - t < 3) /* every cell of a small list, some of a large one */
                wrong += !walks_sliced(set, l, t, rooms[j]);
    EXPECT(wrong == 0);
}

void no_walk_m(interleaver_set set) {
    static const uint32_t cells_tried[] = {0, 1, 40, 41, FAR};
    unsigned j, room;
    for (j = 0; j < sizeof cells_tried / sizeof cells_tried[0]; j++)
        for (room = 0; room < 3; room++) {
            uint32_t cell = cells_tried[j], written = 4, cells = 5;
            uint16_t out[3] = {6, 6, 6};
            EXPECT(interleaver_walk_m(&set, &cell, out, room, &written, &cells) == INTERLEAVER_PROFILE);
            EXPECT(cell == cells_tried[j] && written == 4 && cells == 5 && all_addresses(out, 3, 6));
        }
}
