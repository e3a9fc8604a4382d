/* The walks: whole, cut into parts, refused. */
#include "test.h"

/* one walk of the whole set, into list; the cell total */
static uint32_t whole(walk *go, interleaver_set set, uint16_t *list) {
    uint32_t cell = 0, written = 0, cells = 0, more = 7, none = 7;
    EXPECT(go(&set, &cell, list, set.n, &written, &cells) == 0);
    EXPECT(written == set.n && cells == cell && cells >= written);
    EXPECT(go(&set, &cell, list, 0, &more, &none) == 0 && more == 0 && none == 0);
    EXPECT(go(&set, &cell, list + set.n, 1, &more, &none) == 0 && more == 0);
    return cell;
}

/* the same in parts of growing length, with a refused call between; each part leaves what is behind it alone */
static void parts(walk *go, interleaver_set set, const uint16_t *list, uint32_t total) {
    static uint16_t joined[MAX + 64];
    uint32_t cell = 0, at = 0, passed_by = 0, part = 0;
    memset(joined, 0xee, sizeof joined);
    while (at < set.n) {
        uint32_t room = part++ % 61, written = 9, cells = 9, past = total + 1, old = cell;
        EXPECT(go(&set, &past, joined + at, room, &written, &cells) == INTERLEAVER_RECORD);
        EXPECT(past == total + 1 && written == 9 && cells == 9 && all_addresses(joined + at, room, 0xeeee));
        EXPECT(go(&set, &cell, joined + at, room, &written, &cells) == 0);
        EXPECT(written == (room < set.n - at ? room : set.n - at) && cells == cell - old && cells >= written);
        at += written;
        passed_by += cells;
        EXPECT(all_addresses(joined + at, 64, 0xeeee));
    }
    EXPECT(memcmp(joined, list, 2 * set.n) == 0);
    EXPECT(passed_by == cell && cell <= total);
}

void walks(void) {
    static const uint16_t first[] = {40, 30, 20, 10, 0, 36, 21, 17, 6};
    static uint16_t l[MAX + 1], m[MAX + 1];
    static const uint16_t last[] = {33, 31, 23, 15, 7};
    const interleaver_set turbo = interleaver_set_of(INTERLEAVER_WCDMA, 1, 41), full = interleaver_set_of(INTERLEAVER_WCDMA, 1, 40);
    uint32_t cell = 0, written = 0, cells = 0;
    unsigned i, k, wrong;
    for (i = 0; i < SETS; i++) {
        interleaver_set set = accepted[i];
        uint32_t total = whole(interleaver_walk_l, set, l);
        parts(interleaver_walk_l, set, l, total);
        for (wrong = 0, k = 0; k < set.n; k += set.profile == 5 ? 37 : 1)
            wrong += at_l(set, k) != l[k];
        EXPECT(wrong == 0);
        if (!walks_m(set.profile))
            continue;
        EXPECT(whole(interleaver_walk_m, set, m) == set.n);
        parts(interleaver_walk_m, set, m, set.n);
        for (wrong = 0, k = 0; k < set.n; k++)
            wrong += l[m[k]] != k;
        EXPECT(wrong == 0);
    }
    EXPECT(interleaver_walk_l(&turbo, &cell, l, 9, &written, &cells) == 0);
    EXPECT(memcmp(l, first, sizeof first) == 0 && written == 9 && cells == 10 && cell == 10);
    cell = 0;
    EXPECT(interleaver_walk_l(&full, &cell, l, 1, &written, &cells) == 0 && l[0] == 39 && cell == 1);
    cell = 35;
    EXPECT(interleaver_walk_l(&full, &cell, l, 5, &written, &cells) == 0 && memcmp(l, last, sizeof last) == 0 && cell == 40);
    cell = 3, written = 4, cells = 5, l[0] = 6;
    for (i = 0; i < REFUSED; i++) {
        uint32_t number = refused[i].number, back = walks_m(refused[i].set.profile) ? number : 1;
        EXPECT(interleaver_walk_l(&refused[i].set, &cell, l, 1, &written, &cells) == number);
        EXPECT(interleaver_walk_m(&refused[i].set, &cell, l, 1, &written, &cells) == back);
    }
    EXPECT(interleaver_walk_m(&turbo, &cell, l, 1, &written, &cells) == INTERLEAVER_PROFILE);
    EXPECT(cell == 3 && written == 4 && cells == 5 && l[0] == 6);
}
