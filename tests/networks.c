/*
 * networks.c: hop and walk by virtual networks (RULES, Virtual networks) against the
 * reference: every question of cubes to n = 3, and some of larger ones, by labels of
 * cabinets, by any others, and by bytes that are none.
 */
#include <string.h>

#include "cabinet.h"
#include "cases.h"
#include "check.h"
#include "groups.h"

static void hop_in(uint32_t n, uint32_t networks, uint32_t c, uint32_t d,
                   uint32_t network, uint32_t down)
{
    struct net_hop_question asked = fit_net_hop(n, c, d, labels);
    asked.networks = networks;
    asked.network = network;
    asked.down = down;
    check_net_hop(asked);
}

static void walk_on(uint32_t n, uint32_t networks, uint32_t s, uint32_t d)
{
    uint8_t hops[HCUBE_HOPS_BYTES_MAX];
    random_bytes(hops, sizeof hops);
    check_net_walk(fit_net_walk(n, networks, s, d, labels, hops));
}

/* ---- all that can be asked */

/* From each network and direction, on each board. */
static void all_from(uint32_t n, uint32_t c, uint32_t d)
{
    for (uint32_t networks = 1; networks <= HCUBE_NETWORKS_MAX; networks++) {
        for (uint32_t phase = 0; phase < 2 * networks; phase++)
            hop_in(n, networks, c, d, phase / 2, phase % 2);
        walk_on(n, networks, c, d);
    }
}

static void all_questions(uint32_t n)
{
    for (uint32_t k = 0; k < 1u << 2 * n; k++)
        all_from(n, k >> n, k & ((1u << n) - 1));
}

/* The labels are the digits of the number in base 5; whether there are no more. */
static int put_labels(uint32_t n, unsigned number)
{
    for (uint32_t k = 0; k < 1u << n; k++, number /= LAST_LABEL + 1)
        labels[k] = (uint8_t)(number % (LAST_LABEL + 1));
    return number == 0;
}

void check_net_small(void)
{
    begin_group("networks, all that is asked of n = 1 and 2, and much of n = 3");
    for (uint32_t n = 1; n <= 2; n++)
        for (unsigned number = 0; put_labels(n, number); number++)
            all_questions(n);
    for (unsigned k = 0; k < 120; k++) {
        if (k % 3 == 0)
            random_labels(3, LAST_LABEL, labels);
        else if (k % 3 == 1)
            mixed_labels(3);
        else
            random_labels(3, HCUBE_FAULTY, labels);
        all_questions(3);
    }
    end_group();
}

/* ---- some of larger cubes */

/* At most so many steps from a node, to itself too. */
static uint32_t some_steps(uint32_t n, uint32_t from, unsigned steps)
{
    while (steps--)
        from ^= 1u << random_below(n);
    return from;
}

static void some_questions(uint32_t n)
{
    for (unsigned k = 0; k < 12; k++) {
        uint32_t networks = 1 + random_below(HCUBE_NETWORKS_MAX);
        uint32_t d = k % 3 ? random_below(1u << n) : some_draining(n);
        uint32_t c = k ? some_steps(n, d, random_below(8)) : d ^ ((1u << n) - 1);
        hop_in(n, networks, c, d, random_below(networks), random_below(2));
        if (k % 2 || k == 0)
            walk_on(n, networks, k ? random_below(1u << n) : c, d);
    }
}

void check_net_random(void)
{
    begin_group("networks, 6,000 random label tables to n = 12");
    for (unsigned k = 0; k < 2000; k++) {
        uint32_t n = 1 + k % 12;
        random_cabinet(n, random_density(n));
        label_cabinet(n, 2 + k / 12 % 2);
        some_questions(n);
        mixed_labels(n);
        some_questions(n);
        random_labels(n, HCUBE_ORDINARY + random_below(4), labels);
        some_questions(n);
    }
    end_group();
}

/* ---- a hop goes by c's label and its neighbours' alone, whatever else is there */

void check_net_reads(void)
{
    static uint8_t other[MOST_NODES];
    begin_group("hop by networks, by n + 1 labels");
    for (unsigned k = 0; k < 6000; k++) {
        uint32_t n = 1 + k % 12, c = random_below(1u << n), answer;
        struct net_hop_question asked;
        random_labels(n, LAST_LABEL + (random_below(10) == 0), labels);
        asked = fit_net_hop(n, c, some_steps(n, c, random_below(5)), labels);
        asked.network = random_below(HCUBE_NETWORKS_MAX);
        asked.down = random_below(2);
        answer = check_net_hop(asked);
        random_bytes(other, HCUBE_NODES(n));
        other[c] = labels[c];
        for (uint32_t i = 0; i < n; i++)
            other[c ^ 1u << i] = labels[c ^ 1u << i];
        asked.labels = buffer_of(n, asked.job, other);
        expect(check_net_hop(asked) == answer,
               "n = %u, at %u for %u: by another byte", n, c, asked.d);
    }
    end_group();
}
