/* The padding report's totals in plain C: R, p and C of each size from nothing, by document 01. */
#include "plain_primes.h"

INLINE uint32_t cells_of(uint32_t k)
{
    if (481 <= k && k <= 530)
        return 10 * 53;
    uint32_t r = k < 160 ? 5 : k <= 200 ? 10 : 20, n = 0;
    while (k > r * (primes[n] + 1))
        n++;
    uint32_t p = primes[n], c = k <= r * (p - 1) ? p - 1 : k <= r * p ? p : p + 1;
    return r * c;
}

uint32_t plain_totals(uint32_t first, uint32_t last, uint32_t *totals)
{
    uint32_t cells = 0, pads = 0;
    for (uint32_t k = first; k <= last; k++) {
        uint32_t all = cells_of(k);
        cells += all;
        pads += all - k;
    }
    totals[0] = last - first + 1, totals[1] = cells, totals[2] = pads;
    return 0;
}
