/*
 * bounds.c: demand 3 (RULES, When frames arrive), whose destination may be
 * draining: that walks by the labels of two tables arrive, after how many hops,
 * and what falls with each of them (RULES, No node twice). What is expected stands
 * here once more and is not asked of the reference.
 */
#include "bounds.h"

#include <string.h>

#include "cabinet.h"
#include "cases.h"
#include "check.h"
#include "groups.h"

/* What came up, by whether the destination is draining: where some node is safe,
 * by the source's label, and else whether the walk arrived or halted. */
enum { SAFE_SOURCE, ORDINARY_SOURCE, STRONG_SOURCE, ARRIVED, HALTED, KINDS };
static unsigned long came_up[2][KINDS];

/* Hops that led away from the destination. */
static unsigned long away;

/* Of a node at this distance from the destination: the distance, and from 2 on
 * twice the label besides. */
static uint32_t rank(uint32_t distance, uint32_t x)
{
    return distance < 2 ? distance : distance + 2 * labels[x];
}

/* Every neighbour of c that is nearer d is faulty or draining. */
static int is_stuck(uint32_t n, uint32_t c, uint32_t d)
{
    for (uint32_t i = 0; i < n; i++)
        if ((c ^ d) >> i & 1 && labels[c ^ 1u << i] < HCUBE_FAULTY)
            return 0;
    return 1;
}

static void some_safe(uint32_t n, uint32_t s, uint32_t d, uint32_t answer)
{
    uint32_t distance = ref_distance(n, s, d);
    int exact = labels[s] == HCUBE_SAFE || labels[d] == HCUBE_SAFE;
    expect(answer <= distance + (exact ? 0 : 2 * labels[s]),
           "n = %u: walk %u to %u, some node safe: %08x", n, s, d, answer);
    came_up[labels[d] == HCUBE_DRAINING][labels[s]]++;
}

static void none_safe(uint32_t n, uint32_t s, uint32_t d, uint32_t answer,
                      uint32_t last)
{
    int arrived = answer == ref_distance(n, s, d);
    int halted = HCUBE_REFUSAL(answer) == 0 &&
                 HCUBE_KIND(answer) == HCUBE_WALK_HALTED &&
                 ref_distance(n, last, d) >= 2 && is_stuck(n, last, d);
    expect(arrived || halted, "n = %u: walk %u to %u, no node safe: %08x", n, s,
           d, answer);
    came_up[labels[d] == HCUBE_DRAINING][arrived ? ARRIVED : HALTED]++;
}

/* The rank falls with each hop; and where either end is safe, or no node is, the
 * distance, by one. */
static void falls(uint32_t n, uint32_t s, uint32_t d, int some, uint32_t hops,
                  const uint8_t *row)
{
    int nearer = !some || labels[s] == HCUBE_SAFE || labels[d] == HCUBE_SAFE;
    int all = 1;
    for (uint32_t k = 0; k < hops; k++) {
        uint32_t x = row_place(row, k), y = row_place(row, k + 1);
        uint32_t from = ref_distance(n, x, d), to = ref_distance(n, y, d);
        all &= rank(to, y) < rank(from, x);
        all &= !nearer || to + 1 == from;
        away += to > from;
    }
    expect(all, "n = %u: nothing falls from %u to %u", n, s, d);
}

void check_bounds_of(uint32_t n, uint32_t s, uint32_t d, int some)
{
    uint8_t row[ROW_BYTES];
    uint32_t answer = walk_by(labels, n, s, d, row);
    uint32_t last = row_place(row, HCUBE_VALUE(answer) % ROW_PLACES);
    if (labels[s] >= HCUBE_FAULTY || labels[d] == HCUBE_FAULTY)
        return;
    if (some)
        some_safe(n, s, d, answer);
    else
        none_safe(n, s, d, answer, last);
    falls(n, s, d, some, HCUBE_VALUE(answer), row);
    expect(answer >> 16 || last == d, "n = %u: walk %u to %u does not arrive", n,
           s, d);
}

int has_safe_node(uint32_t n)
{
    return memchr(labels, HCUBE_SAFE, (size_t)1 << n) != NULL;
}

static void bounds_of_some(uint32_t n)
{
    int some = has_safe_node(n);
    for (unsigned k = 0; k < 12; k++) {
        check_bounds_of(n, random_below(1u << n), random_below(1u << n), some);
        check_bounds_of(n, random_below(1u << n), some_draining(n), some);
    }
}

static void bounds_of_all(uint32_t n)
{
    int some = has_safe_node(n);
    for (uint32_t s = 0; s < 1u << n; s++)
        for (uint32_t d = 0; d < 1u << n; d++)
            check_bounds_of(n, s, d, some);
}

void check_bounds(void)
{
    begin_group("bounds of walks, to working and to draining nodes");
    for (unsigned k = 0; k < 2400; k++) {
        uint32_t n = 1 + k % 12;
        random_cabinet(n, random_density(n));
        label_cabinet(n, 2 + k / 12 % 2);
        bounds_of_some(n);
    }
    for (unsigned k = 0; k < 300; k++) {
        random_cabinet(4, 150 + random_below(150));
        label_cabinet(4, 3);
        bounds_of_all(4);
    }
    for (unsigned k = 0; k < 2 * KINDS; k++)
        expect(came_up[k % 2][k / 2] >= 20, "kind %u came up %lu times", k,
               came_up[k % 2][k / 2]);
    expect(away >= 20, "%lu hops led away", away);
    end_group();
}
