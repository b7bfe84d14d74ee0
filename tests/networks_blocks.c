/*
 * networks_blocks.c: each block of either call of FORWARD (RULES, Virtual networks)
 * across each dimension, from each network and direction. Where it hops, and in which
 * network, stands here once more and is not asked of the reference.
 */
#include <string.h>

#include "cabinet.h"
#include "cases.h"
#include "check.h"
#include "groups.h"

/* What is to be tried: the block takes dimension i, forward or spare; or the hop home,
 * block 0, does. */
struct tried {
    uint32_t n, i, network, down;
    int spare;
    unsigned block;
};

static int turns(const struct tried *t)
{
    return t->block != 0 ? t->block % 2 == 0 : (int)random_below(2);
}

/* A node beside which the hop across i goes on, or turns. */
static uint32_t node_for(const struct tried *t, int turning)
{
    uint32_t others = random_below(1u << t->n) & ~(1u << t->i);
    return others | (t->down ^ (uint32_t)turning) << t->i;
}

/* A destination to which i is forward, or not: near it in most cases. */
static uint32_t destination(const struct tried *t, uint32_t c)
{
    uint32_t apart = 1u << random_below(t->n) | 1u << random_below(t->n);
    if (random_below(3) == 0)
        apart = random_below(1u << t->n);
    apart &= ~(1u << t->i);
    if (t->block == 0)
        apart = 0;
    if (!t->spare)
        return c ^ apart ^ 1u << t->i;
    return c ^ (apart ? apart : 1u << (t->i + 1) % t->n);
}

static uint8_t some_above(uint8_t label)
{
    return (uint8_t)(label + 1 + random_below(HCUBE_DRAINING - label));
}

/* All others around c are faulty or draining, but for some across higher dimensions
 * that the block would take too, and some of the same call with a label that only a
 * later block takes. The destination drains for the hop home alone. */
static void put_around(const struct tried *t, uint32_t c, uint32_t d)
{
    static const uint8_t taken[] = {HCUBE_DRAINING, HCUBE_SAFE, HCUBE_SAFE,
                                    HCUBE_ORDINARY, HCUBE_ORDINARY, HCUBE_STRONG,
                                    HCUBE_STRONG};
    random_bytes(labels, HCUBE_NODES(t->n));
    for (uint32_t k = 0; k < t->n; k++) {
        int same_call = ((c ^ d) >> k & 1) == !t->spare;
        int alike = same_call && (c >> k & 1) == (c >> t->i & 1) && random_below(2);
        uint8_t most = same_call ? taken[t->block] : HCUBE_STRONG;
        labels[c ^ 1u << k] = k == t->i || (k > t->i && alike)
                                  ? taken[t->block]
                                  : some_above(t->block ? most : HCUBE_STRONG);
    }
    if (t->spare && ref_distance(t->n, c, d) == 1)
        labels[d] = HCUBE_FAULTY;
    labels[c] = t->block > 4 && random_below(2) ? HCUBE_STRONG
                                                : (uint8_t)random_below(3);
}

/* From down to up block 4 hops in network 0 alone or where two hops are to go, and
 * block 6 there; neither 5 nor 6 hops from farther away, unless c is strongly unsafe. */
static int hops(const struct tried *t, uint8_t own, unsigned l)
{
    if (l <= 2)
        return 1;
    if (t->block > 4 && own != HCUBE_STRONG)
        return 0;
    if (t->down == 0 || t->block % 2 == 1 || t->block == 2)
        return 1;
    return t->block == 4 && t->network == 0;
}

static uint32_t due(const struct tried *t, uint32_t c, uint32_t d, uint32_t networks)
{
    int rises = t->down && (c >> t->i & 1) == 0;
    uint32_t network = t->network + (uint32_t)rises;
    if (!hops(t, labels[c], ref_distance(t->n, c, d)))
        return HCUBE_HALTED << 16;
    return network < networks ? (HCUBE_HOP << 16) + network * 16 + t->i
                              : REFUSED(16);
}

static void try_one(const struct tried *t)
{
    uint32_t c = node_for(t, turns(t)), d = destination(t, c), answer;
    struct net_hop_question asked;
    put_around(t, c, d);
    asked = fit_net_hop(t->n, c, d, labels);
    asked.networks = t->network + 1 + random_below(5 - t->network);
    asked.network = t->network;
    asked.down = t->down;
    answer = check_net_hop(asked);
    expect(answer == due(t, c, d, asked.networks),
           "n = %u, %u to %u in %u, down %u, block %u across %u: %08x", t->n, c, d,
           t->network, t->down, t->block, t->i, answer);
}

void check_net_blocks(void)
{
    begin_group("networks, each block across each dimension");
    for (unsigned k = 0; k < 12 * 12 * 5 * 2 * 2 * 7 * 12; k++) {
        struct tried t = {.n = 1 + k % 12,
                          .i = k / 12 % 12,
                          .network = k / 144 % 5,
                          .down = k / 720 % 2,
                          .spare = k / 1440 % 2,
                          .block = k / 2880 % 7};
        if (t.i < t.n && !(t.spare && (t.n == 1 || t.block == 0)))
            try_one(&t);
    }
    end_group();
}
