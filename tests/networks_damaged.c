/*
 * networks_damaged.c: hop and walk by virtual networks on random damage, with numbers
 * that would be good once narrowed, and with bytes that may only be read.
 */
#include <string.h>

#include "cabinet.h"
#include "cases.h"
#include "check.h"
#include "damage.h"
#include "groups.h"
#include "lent.h"

static uint8_t hops[MOST_LENT];

/* ---- random damage */

/* Below a bound, or what might be taken for it. */
static uint32_t any_below(uint32_t bound)
{
    static const uint32_t more[] = {16, 256, 65536, 1u << 31, 0u - 16};
    uint32_t k = random_below(bound);
    switch (random_below(24)) {
    case 0: return bound;
    case 1: return k + more[random_below(COUNT(more))];
    case 2: return 0xffffffffu;
    default: return k;
    }
}

/* Some bytes that are no label: at c, beside it, or anywhere. */
static void damage_labels(uint32_t n, uint32_t c)
{
    c &= (1u << n) - 1;
    switch (random_below(12)) {
    case 0: labels[c] = no_label(); return;
    case 1: labels[c ^ 1u << random_below(n)] = no_label(); return;
    case 2: labels[random_below(1u << n)] = no_label(); return;
    }
}

static void damaged_questions(uint32_t n, uint32_t fitting)
{
    uint32_t s = any_node(fitting), d = any_node(fitting), job = any_job();
    uint32_t networks = 1 + any_below(HCUBE_NETWORKS_MAX);
    struct net_hop_question hop;
    struct net_walk_question walk;
    mixed_labels(fitting);
    damage_labels(fitting, s);
    hop = fit_net_hop(fitting, s, d, labels);
    walk = fit_net_walk(fitting, 1 + (networks - 1) % 5, s, d, labels, hops);
    hop.n = walk.n = n;
    hop.networks = walk.networks = networks;
    hop.network = any_below(1 + (networks - 1) % 5);
    hop.down = any_below(2);
    if (job > 1)
        hop.job = walk.job = job;
    hop.labels_len = any_length(hop.labels_len);
    check_net_hop(hop);
    walk.labels_len = any_length(walk.labels_len);
    walk.hops_len = any_length(walk.hops_len);
    check_net_walk(walk);
}

/* A walk is refused with 4 for one byte, whichever node's it is. */
static void one_is_none(uint32_t n)
{
    for (uint32_t k = 0; k < 1u << n; k++) {
        memset(labels, 0, HCUBE_NODES(n));
        labels[k] = no_label();
        expect(check_net_walk(fit_net_walk(n, 1, 0, 1, labels, hops)) == REFUSED(4),
               "n = %u: the label of %u", n, k);
    }
}

void check_net_damaged(void)
{
    begin_group("networks, 12,000 damaged questions, and each label damaged alone");
    random_bytes(hops, sizeof hops);
    for (uint32_t n = 1; n <= 12; n++)
        one_is_none(n);
    for (unsigned k = 0; k < 12000; k++) {
        uint32_t n = any_dimension();
        damaged_questions(n, 1 + (n - 1) % 12);
    }
    end_group();
}

/* ---- numbers that would be good once narrowed */

/* Each number of either question in turn with so many more: n = 4, all safe. */
static void with_more(uint32_t more)
{
    const unsigned refusals[] = {1, 15, 19, 5, 5, 15, 15};
    for (unsigned which = 0; which < COUNT(refusals); which++) {
        struct net_hop_question hop = fit_net_hop(4, 3, 5, labels);
        struct net_walk_question walk = fit_net_walk(4, 1, 3, 5, labels, hops);
        uint32_t *of_hop[] = {&hop.n, &hop.networks, &hop.job, &hop.c,
                              &hop.d, &hop.network, &hop.down};
        uint32_t *of_walk[] = {&walk.n, &walk.networks, &walk.job, &walk.s,
                               &walk.d};
        hop.networks = 1;
        hop.labels = walk.labels = buffer_of(4, 2, labels); /* both halves */
        *of_hop[which] += more;
        expect(check_net_hop(hop) == REFUSED(refusals[which]), "hop, number %u + %u",
               which, more);
        if (which >= COUNT(of_walk))
            continue;
        *of_walk[which] += more;
        expect(check_net_walk(walk) == REFUSED(refusals[which]),
               "walk, number %u + %u", which, more);
    }
}

/* On so many networks, which is none. */
static void no_board(uint32_t networks)
{
    struct net_hop_question hop = fit_net_hop(4, 3, 5, labels);
    struct net_walk_question walk = fit_net_walk(4, 5, 3, 5, labels, hops);
    hop.networks = walk.networks = networks;
    expect(check_net_hop(hop) == REFUSED(15), "hop by %u networks", networks);
    expect(check_net_walk(walk) == REFUSED(15), "walk by %u networks", networks);
}

/* In this network of a board, which has it or not. */
static void in_network(uint32_t networks, uint32_t network, uint32_t down)
{
    struct net_hop_question hop = fit_net_hop(4, 3, 5, labels);
    hop.networks = networks;
    hop.network = network;
    hop.down = down;
    expect((check_net_hop(hop) == REFUSED(15)) == (network >= networks || down > 1),
           "in %u of %u networks, down %u", network, networks, down);
}

void check_net_numbers(void)
{
    begin_group("networks, numbers tested before they are narrowed");
    memset(labels, 0, sizeof labels);
    random_bytes(hops, sizeof hops);
    for (unsigned i = 4; i < 32; i++) {
        with_more(1u << i);
        with_more(0u - (1u << i));
        for (uint32_t networks = 1; networks <= 5; networks++)
            no_board((1u << i) + networks);
    }
    no_board(0);
    no_board(0xffffffffu);
    for (uint32_t networks = 6; networks < 600; networks++)
        no_board(networks);
    for (uint32_t networks = 1; networks <= 5; networks++)
        for (uint32_t k = 0; k < 600; k++) {
            in_network(networks, k, random_below(2));
            in_network(networks, random_below(networks), k);
        }
    end_group();
}

/* ---- bytes that may only be read: the labels always; the list where it is refused, and
 * behind the last hop */

static void leaves_alone(uint32_t n, uint32_t s, uint32_t d)
{
    static struct lent table, list;
    uint32_t networks = 1 + random_below(HCUBE_NETWORKS_MAX), want, got;
    struct net_walk_question asked = fit_net_walk(n, networks, s, d, labels, hops);
    struct net_hop_question hop = fit_net_hop(n, s, d, labels);
    asked.hops_len = asked.hops_len + random_below(3) - 1;
    asked.labels_len += random_below(16) == 0;
    want = check_net_walk(asked);
    lend_to_read(&table, asked.labels, asked.labels_len, random_below(64));
    lend_to_read(&list, hops, asked.hops_len,
                 HCUBE_REFUSAL(want) ? 0 : HCUBE_VALUE(want));
    asked.labels = table.bytes;
    asked.hops = list.bytes;
    got = ask_net_walk(asked);
    expect(got == want && lent_is(&list, hops), "n = %u, %u to %u: %08x, not %08x", n,
           s, d, got, want);
    want = check_net_hop(hop);
    lend_to_read(&table, hop.labels, hop.labels_len, random_below(64));
    hop.labels = table.bytes;
    expect(ask_net_hop(hop) == want, "n = %u, hop %u to %u: not %08x", n, s, d, want);
}

void check_net_left(void)
{
    begin_group("networks, what is only to be read left alone");
    random_bytes(hops, sizeof hops);
    for (unsigned k = 0; k < 2400; k++) {
        uint32_t n = 1 + k % 12;
        if (k % 2)
            mixed_labels(n);
        else
            random_labels(n, HCUBE_ORDINARY + random_below(3), labels);
        if (k % 16 == 0)
            damage_labels(n, random_below(1u << n));
        leaves_alone(n, random_below(1u << n), random_below((1u << n) + (k % 8 == 0)));
    }
    end_group();
}
