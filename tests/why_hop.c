/*
 * why_hop.c: why a hop is taken (RULES, Why a hop is taken), between all nodes
 * of small cubes and some of larger ones, by labels of cabinets, by any others,
 * and by bytes that are none. Which scan takes what stands here once more and
 * is not asked of the reference.
 */
#include <string.h>

#include "cabinet.h"
#include "cases.h"
#include "check.h"
#include "groups.h"

/* Whether the scan takes dimension i at c for d, by the labels at hand. */
static int takes(unsigned scan, uint32_t n, uint32_t c, uint32_t d, uint32_t i)
{
    int forward = (c ^ d) >> i & 1;
    unsigned l = ref_distance(n, c, d);
    uint8_t next = labels[c ^ 1u << i];
    switch (scan) {
    case 0: return forward && l == 1 && next == HCUBE_DRAINING;
    case 1: return forward && next == HCUBE_SAFE;
    case 2: return forward && next <= HCUBE_ORDINARY;
    case 3:
        return forward && next <= HCUBE_STRONG &&
               (labels[c] == HCUBE_STRONG || l <= 2);
    case 4: return !forward && next == HCUBE_SAFE;
    default: return !forward && next <= HCUBE_ORDINARY;
    }
}

/* Whether it takes a dimension below this one. */
static int takes_below(uint32_t below, unsigned scan, uint32_t n, uint32_t c,
                       uint32_t d)
{
    for (uint32_t i = 0; i < below; i++)
        if (takes(scan, n, c, d, i))
            return 1;
    return 0;
}

/* The dimension is the lowest that the scan takes, and no scan before it takes
 * any. Where a message halts the last scan takes none either. */
static int is_reason(uint32_t n, uint32_t c, uint32_t d, uint32_t why)
{
    int is_hop = HCUBE_KIND(why) == HCUBE_HOP;
    unsigned scan = is_hop ? HCUBE_WHY_SCAN(why) : 6;
    for (unsigned earlier = 0; earlier < scan && earlier < 6; earlier++)
        if (takes_below(n, earlier, n, c, d))
            return 0;
    if (!is_hop)
        return why == HCUBE_HALTED << 16;
    return scan < 6 && HCUBE_WHY_DIMENSION(why) < n &&
           takes(scan, n, c, d, HCUBE_WHY_DIMENSION(why)) &&
           !takes_below(HCUBE_WHY_DIMENSION(why), scan, n, c, d);
}

static int is_near_bad(uint32_t n, uint32_t c)
{
    int bad = labels[c] > LAST_LABEL;
    for (uint32_t i = 0; i < n; i++)
        bad |= labels[c ^ 1u << i] > LAST_LABEL;
    return bad;
}

/* What is refused, and a message that has arrived, have one answer. */
static void explains(uint32_t n, uint32_t c, uint32_t d)
{
    struct hop_question asked = fit_hop(n, c, d, labels);
    uint32_t hop = ask_hop(asked), why = check_why_hop(asked);
    uint8_t own = labels[c];
    int holds;
    if (is_near_bad(n, c))
        holds = why == REFUSED(4);
    else if (own == HCUBE_FAULTY || (own == HCUBE_DRAINING && c != d))
        holds = why == REFUSED(6);
    else if (c == d)
        holds = why == HCUBE_DELIVER << 16;
    else
        holds = is_reason(n, c, d, why);
    expect(holds, "n = %u, %u to %u: %08x is no reason", n, c, d, why);
    expect(HCUBE_REFUSAL(why) == HCUBE_REFUSAL(hop) &&
               HCUBE_KIND(why) == HCUBE_KIND(hop) &&
               HCUBE_WHY_DIMENSION(why) == HCUBE_VALUE(hop),
           "n = %u, %u to %u: %08x, but the hop is %08x", n, c, d, why, hop);
}

/* All nodes of small cubes. In others c is any node, and d some steps from it. */
static void explain_some(uint32_t n)
{
    for (uint32_t k = 0; n <= 4 && k < 1u << 2 * n; k++)
        explains(n, k >> n, k & ((1u << n) - 1));
    for (unsigned k = 0; n > 4 && k < 32; k++) {
        uint32_t c = random_below(1u << n), d = c;
        for (unsigned steps = k % 8; steps; steps--)
            d ^= 1u << random_below(n);
        explains(n, c, d);
    }
}

/* Some bytes that are no label, one in 8 or fewer. */
static void put_bad(uint32_t n)
{
    for (uint32_t k = random_below(8); k < 1u << n; k += 1 + random_below(16))
        labels[k] = (uint8_t)(LAST_LABEL + 1 + random_below(255 - LAST_LABEL));
}

void check_why_hops(void)
{
    begin_group("why a hop, all pairs to n = 4, by labels and other bytes");
    for (unsigned k = 0; k < 12 * 60; k++) {
        uint32_t n = 1 + k % 12;
        random_cabinet(n, random_density(n));
        label_cabinet(n, 2 + k / 12 % 2);
        explain_some(n);
        mixed_labels(n);
        explain_some(n);
        put_bad(n);
        explain_some(n);
    }
    end_group();
}

/* ---- each scan across each dimension */

/* The label of the neighbour that each scan takes here. */
static const uint8_t taken[] = {HCUBE_DRAINING, HCUBE_SAFE, HCUBE_ORDINARY,
                                HCUBE_STRONG, HCUBE_SAFE, HCUBE_ORDINARY};

/* Where d is, for a scan that is to take dimension i at c: i is forward up to
 * scan 3, and alone in scan 0. */
static uint32_t destination(uint32_t n, uint32_t c, unsigned scan, uint32_t i)
{
    uint32_t others = random_below(1u << n) & ~(1u << i);
    if (scan == 0)
        return c ^ 1u << i;
    if (scan <= 3)
        return c ^ 1u << i ^ others;
    return c ^ (others ? others : 1u << (i + 1) % n);
}

/* All others around c are faulty, but for some across higher dimensions, which
 * the scan would take too. */
static void is_taken(uint32_t n, uint32_t job, unsigned scan, uint32_t i)
{
    uint32_t c = random_below(1u << n), d = destination(n, c, scan, i), why;
    struct hop_question asked;
    memset(labels, HCUBE_FAULTY, HCUBE_NODES(n));
    for (uint32_t k = i; k < n; k++)
        if (k == i || (((c ^ d) >> k & 1) == (scan <= 3) && random_below(2)))
            labels[c ^ 1u << k] = taken[scan];
    labels[c] = scan == 3 && ref_distance(n, c, d) > 2
                    ? HCUBE_STRONG
                    : (uint8_t)random_below(3);
    asked = fit_hop(n, c, d, labels);
    asked.job = job;
    asked.labels = buffer_of(n, job, labels);
    why = check_why_hop(asked);
    expect(why == 65536u + 256 * scan + i,
           "n = %u, job %u, %u to %u: %08x, not scan %u across %u", n, job, c,
           d, why, scan, i);
}

void check_scans_taken(void)
{
    begin_group("why a hop, each scan across each dimension");
    for (uint32_t n = 1; n <= 12; n++)
        for (unsigned k = 0; k < 6 * 2 * 4; k++)
            for (uint32_t i = 0; i < n; i++)
                if (n > 1 || k % 6 <= 3)
                    is_taken(n, k / 6 % 2, k % 6, i);
    end_group();
}
