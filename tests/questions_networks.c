/* questions_networks.c: what questions.c does, for hop and walk by virtual networks. */
#include "asked.h"
#include "questions.h"

struct net_hop_question fit_net_hop(uint32_t n, uint32_t c, uint32_t d,
                                    const uint8_t *half)
{
    struct hop_question hop = fit_hop(n, c, d, half);
    struct net_hop_question asked = {.n = n,
                                     .networks = HCUBE_NETWORKS_MAX,
                                     .job = hop.job,
                                     .c = c,
                                     .d = d,
                                     .labels = hop.labels,
                                     .labels_len = hop.labels_len};
    return asked;
}

struct net_walk_question fit_net_walk(uint32_t n, uint32_t networks, uint32_t s,
                                      uint32_t d, const uint8_t *half,
                                      uint8_t *hops)
{
    struct walk_question walk = fit_walk(n, s, d, half, hops);
    struct net_walk_question asked = {.n = n,
                                      .networks = networks,
                                      .job = walk.job,
                                      .s = s,
                                      .d = d,
                                      .labels = walk.labels,
                                      .labels_len = walk.labels_len,
                                      .hops = hops,
                                      .hops_len = (size_t)2 * n * networks};
    return asked;
}

uint32_t ask_net_hop(struct net_hop_question asked)
{
    keep_net_hop(asked);
    return hcube_hop_networks(asked.n, asked.networks, asked.job, asked.c, asked.d,
                              asked.network, asked.down, asked.labels,
                              asked.labels_len);
}

uint32_t ask_net_walk(struct net_walk_question asked)
{
    keep_net_walk(asked);
    return hcube_walk_networks(asked.n, asked.networks, asked.job, asked.s, asked.d,
                               asked.labels, asked.labels_len, asked.hops,
                               asked.hops_len);
}
