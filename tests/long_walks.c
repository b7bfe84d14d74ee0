/*
 * long_walks.c: walks around the bound of n + 4 hops. Label tables are grown by
 * hill climbing until the way from s to d has the wanted number of hops, and
 * the library is held against the reference on each table on the way there.
 */
#include <string.h>

#include "cases.h"
#include "check.h"
#include "frames.h"
#include "groups.h"
#include "reference.h"

#define FAR 24u /* a way of more hops does not count */

static uint8_t labels[MOST_NODES];
static uint32_t way[FAR + 1];

/* Hops from s to d with no bound but FAR; 0 if it does not get there. */
static unsigned hops_to(uint32_t n, uint32_t s, uint32_t d)
{
    unsigned hops = 0;
    uint32_t dimension = 0;
    way[0] = s;
    while (way[hops] != d) {
        if (hops == FAR ||
            ref_scan(n, way[hops], d, labels, &dimension) == NO_SCAN)
            return 0;
        way[hops + 1] = way[hops] ^ 1u << dimension;
        hops++;
    }
    return hops;
}

/* To d, which is safe, and by the same way where it is draining instead. */
static void check_here(uint32_t n, uint32_t s, uint32_t d)
{
    uint8_t row[ROW_BYTES], drained[ROW_BYTES];
    uint32_t answer;
    memset(row, 0xee, sizeof row);
    memset(drained, 0xee, sizeof drained);
    answer = check_walk(fit_walk(n, s, d, labels, row));
    labels[d] = HCUBE_DRAINING;
    expect(check_walk(fit_walk(n, s, d, labels, drained)) == answer &&
               !memcmp(row, drained, sizeof row),
           "n = %u: another walk %u to %u where it is draining", n, s, d);
    labels[d] = HCUBE_SAFE;
}

/* Gives nodes beside the way other labels until it has the wanted number of
 * hops. A label that makes it shorter, or longer than wanted, is taken back. */
static int grow(uint32_t n, uint32_t s, uint32_t d, unsigned wanted_hops)
{
    unsigned hops, now;
    memset(labels, 0, (size_t)1 << n);
    hops = hops_to(n, s, d);
    for (unsigned step = 0; step < 4000 && hops != wanted_hops; step++) {
        uint32_t k = way[random_below(hops)] ^ 1u << random_below(n);
        uint8_t old = labels[k];
        if (k == s || k == d)
            continue;
        labels[k] = (uint8_t)random_below(LAST_LABEL + 1);
        now = hops_to(n, s, d);
        if (now < hops || now > wanted_hops) {
            labels[k] = old;
            hops_to(n, s, d);
        } else if (now > hops) {
            check_here(n, s, d);
            hops = now;
        }
    }
    return hops == wanted_hops;
}

/* Ten tables whose way has n + more hops, between nodes at this distance. */
static void grow_ten(uint32_t n, uint32_t distance, unsigned more)
{
    unsigned found = 0;
    for (unsigned attempt = 0; attempt < 400 && found < 10; attempt++) {
        uint32_t s = random_below(1u << n), ones = (1u << n) - 1;
        uint32_t d = s ^ (distance == n ? ones : ones ^ 1u << random_below(n));
        if (!grow(n, s, d, n + more))
            continue;
        check_here(n, s, d);
        expect(check_frame(n, s, d, labels) == (more <= 4 ? WALKED : LONGER),
               "n = %u: no frame from %u to %u", n, s, d);
        found++;
    }
    expect(found == 10, "n = %u: %u walks of n + %u hops", n, found, more);
}

void check_long_walks(void)
{
    begin_group("walks of n + 3 to n + 6 hops");
    for (uint32_t n = 4; n <= 12; n++) {
        grow_ten(n, n - 1, 3);
        grow_ten(n, n, 4);
        if (n == 4)
            continue; /* 16 nodes have no longer way */
        grow_ten(n, n - 1, 5);
        grow_ten(n, n, 6);
    }
    end_group();
}
