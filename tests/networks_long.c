/*
 * networks_long.c: long walks by virtual networks. Label tables are grown by hill
 * climbing until the walk from s to d has many hops, and the library is held against
 * the reference on each table on the way there, on every board.
 */
#include <string.h>

#include "cases.h"
#include "check.h"
#include "groups.h"

static uint8_t labels[MOST_NODES];

/* Hops by so many networks; 0 where it is refused. */
static uint32_t hops_to(uint32_t n, uint32_t networks, uint32_t s, uint32_t d,
                        uint8_t *hops)
{
    static uint8_t both[MOST_LABEL_BYTES];
    uint32_t answer;
    memcpy(both, labels, HCUBE_NODES(n));
    answer = ref_walk_networks(n, networks, 0, s, d, both, ref_label_bytes(n), hops,
                               HCUBE_HOPS_BYTES_MAX);
    return HCUBE_REFUSAL(answer) ? 0 : HCUBE_VALUE(answer);
}

static void check_here(uint32_t n, uint32_t s, uint32_t d)
{
    uint8_t hops[HCUBE_HOPS_BYTES_MAX];
    for (uint32_t networks = 1; networks <= HCUBE_NETWORKS_MAX; networks++) {
        random_bytes(hops, sizeof hops);
        check_net_walk(fit_net_walk(n, networks, s, d, labels, hops));
    }
}

/* Another label for a node beside the walk. */
static uint32_t some_beside(uint32_t n, uint32_t s, const uint8_t *hops,
                            uint32_t count)
{
    uint32_t k = s;
    for (uint32_t place = random_below(count + 1); place > 0; place--)
        k ^= 1u << HCUBE_HOP_DIMENSION(hops[place - 1]);
    return k ^ 1u << random_below(n);
}

/* A label that makes the walk shorter is taken back. How many hops it comes to. */
static uint32_t grow(uint32_t n, uint32_t networks, uint32_t s, uint32_t d,
                     unsigned steps)
{
    uint8_t hops[HCUBE_HOPS_BYTES_MAX];
    uint32_t most;
    memset(labels, 0, HCUBE_NODES(n));
    most = hops_to(n, networks, s, d, hops);
    for (unsigned step = 0; step < steps; step++) {
        uint32_t k = some_beside(n, s, hops, most), now;
        uint8_t old = labels[k];
        labels[k] = (uint8_t)random_below(LAST_LABEL + 1);
        now = hops_to(n, networks, s, d, hops);
        if (now < most) {
            labels[k] = old;
            hops_to(n, networks, s, d, hops);
        } else if (now > most) {
            check_here(n, s, d);
            most = now;
        }
    }
    check_here(n, s, d);
    return most;
}

void check_net_long(void)
{
    uint32_t longest = 0;
    begin_group("long walks by networks");
    for (unsigned k = 0; k < 800; k++) {
        uint32_t n = 2 + k % 7, networks = 1 + k / 7 % HCUBE_NETWORKS_MAX;
        uint32_t s = k % 3 ? 0 : random_below(1u << n);
        grow(n, networks, s, random_below(1u << n), 1500);
    }
    for (unsigned k = 0; k < 8; k++) {
        uint32_t hops = grow(10, HCUBE_NETWORKS_MAX, 0, random_below(1u << 10),
                             200000);
        longest = hops > longest ? hops : longest;
    }
    expect(longest > 64, "the longest has %u hops", longest);
    end_group();
}
