/* seen_networks.c: what seen.c does, for hop and walk by virtual networks. */
#include "cases.h"
#include "seen.h"

static void count_routed(struct net_hop_question asked, const uint8_t *half)
{
    struct ref_routed to;
    uint32_t turn;
    int routed = ref_route(asked.n, asked.c, asked.d, asked.network, asked.down, half,
                           &to);
    for (unsigned call = 0; call < 2; call++)
        if (to.ended[call])
            SEEN(net_ended[call], to.ended[call]);
    if (!routed)
        return;
    turn = 2 * asked.down + (asked.c >> to.dimension & 1);
    SEEN(net_turn, turn);
    if (to.call == 0)
        SEEN(net_home, turn);
    else
        SEEN(net_block[to.call - 1], to.block);
    if (to.network >= asked.networks)
        return;
    SEEN(net_network, to.network);
    SEEN(net_dimension, to.dimension);
}

void saw_net_hop(struct net_hop_question asked, uint32_t answer)
{
    unsigned refusal = HCUBE_REFUSAL(answer);
    SEEN(refusal[NET_HOP][whose(asked.job)], refusal);
    if (refusal == HCUBE_NO_NETWORK)
        SEEN(net_lacking[0], asked.networks);
    else if (refusal)
        return;
    if (asked.c != asked.d)
        count_routed(asked, asked.labels + HCUBE_HALF(asked.n, asked.job));
    if (refusal)
        return;
    SEEN(cube[NET_HOP][whose(asked.job)], asked.n);
    SEEN(net_kind, HCUBE_KIND(answer));
}

void saw_net_walk(struct net_walk_question asked, uint32_t answer,
                  const uint8_t *hops)
{
    uint32_t refusal = HCUBE_REFUSAL(answer), count = HCUBE_VALUE(answer);
    SEEN(refusal[NET_WALK][whose(asked.job)], refusal);
    if (refusal == HCUBE_NO_NETWORK)
        SEEN(net_lacking[1], asked.networks);
    if (refusal)
        return;
    SEEN(cube[NET_WALK][whose(asked.job)], asked.n);
    SEEN(net_walk_kind, HCUBE_KIND(answer));
    SEEN(net_walk_hops[HCUBE_KIND(answer)], count < 40 ? count : 40);
    if (count > 0)
        SEEN(net_walk_last, HCUBE_HOP_NETWORK(hops[count - 1]));
}
