/* check_networks.c: what check.c does, for hop and walk by virtual networks. */
#include "check.h"

#include <string.h>

#include "cases.h"
#include "lent.h"

static struct lent labels, hops;
static uint8_t wanted[MOST_LENT];

uint32_t check_net_hop(struct net_hop_question asked)
{
    struct net_hop_question lent = asked;
    uint32_t answer, want;
    lend(&labels, asked.labels, asked.labels_len);
    lent.labels = labels.bytes;
    want = ref_hop_networks(asked.n, asked.networks, asked.job, asked.c, asked.d,
                            asked.network, asked.down, asked.labels,
                            asked.labels_len);
    answer = ask_net_hop(lent);
    expect(answer == want,
           "hop n=%u, %u networks, job %u, %u to %u in %u, down %u: %08x, not %08x",
           asked.n, asked.networks, asked.job, asked.c, asked.d, asked.network,
           asked.down, answer, want);
    expect(lent_is(&labels, asked.labels),
           "hop n=%u, %u networks, job %u: a byte changed", asked.n, asked.networks,
           asked.job);
    saw_net_hop(asked, want);
    return answer;
}

/* No hop before this one leaves the same node in the same network and dimension. */
static int is_new(struct net_walk_question asked, uint32_t place, uint32_t node)
{
    uint32_t here = asked.s;
    for (uint32_t k = 0; k < place; k++) {
        if (here == node && asked.hops[k] == asked.hops[place])
            return 0;
        here ^= 1u << HCUBE_HOP_DIMENSION(asked.hops[k]);
    }
    return 1;
}

/* Whatever the labels, and whatever the reference says. */
static void check_net_way(struct net_walk_question asked, uint32_t answer)
{
    uint32_t count = HCUBE_VALUE(answer), here = asked.s, phase = 0;
    const uint8_t *half;
    int passes = count <= 2 * asked.n * asked.networks;
    if (HCUBE_REFUSAL(answer) || asked.job >= NO_JOB)
        return;
    half = asked.labels + HCUBE_HALF(asked.n, asked.job);
    for (uint32_t k = 0; passes && k < count; k++) {
        uint32_t i = HCUBE_HOP_DIMENSION(asked.hops[k]);
        uint32_t network = HCUBE_HOP_NETWORK(asked.hops[k]);
        uint32_t next = 2 * network + (here >> i & 1);
        passes = i < asked.n && network < asked.networks && next >= phase &&
                 half[here] < HCUBE_FAULTY && is_new(asked, k, here);
        phase = next;
        here ^= 1u << i;
    }
    passes &= (here == asked.d) == (HCUBE_KIND(answer) == HCUBE_WALK_DELIVERED);
    expect(passes, "walk n=%u, %u networks, %u to %u: no way", asked.n,
           asked.networks, asked.s, asked.d);
}

uint32_t check_net_walk(struct net_walk_question asked)
{
    struct net_walk_question lent = asked;
    uint32_t answer, want;
    lend(&labels, asked.labels, asked.labels_len);
    lend(&hops, asked.hops, asked.hops_len);
    lent.labels = labels.bytes;
    lent.hops = hops.bytes;
    memcpy(wanted, asked.hops, asked.hops_len);
    want = ref_walk_networks(asked.n, asked.networks, asked.job, asked.s, asked.d,
                             asked.labels, asked.labels_len, wanted,
                             asked.hops_len);
    answer = ask_net_walk(lent);
    expect(answer == want, "walk n=%u, %u networks, job %u, %u to %u: %08x, not %08x",
           asked.n, asked.networks, asked.job, asked.s, asked.d, answer, want);
    expect(lent_is(&labels, asked.labels) && lent_is(&hops, wanted),
           "walk n=%u, %u networks, job %u, %u to %u (%08x): wrong bytes", asked.n,
           asked.networks, asked.job, asked.s, asked.d, want);
    saw_net_walk(asked, want, wanted);
    memcpy(asked.hops, hops.bytes, asked.hops_len);
    check_net_way(asked, answer);
    return answer;
}
