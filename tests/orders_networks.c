/*
 * orders_networks.c: for hop and walk by virtual networks, inputs to which two refusals
 * apply at once.
 */
#include <string.h>

#include "cases.h"
#include "check.h"
#include "lent.h"
#include "orders.h"

static const uint8_t none[MOST_LENT];

/* ---- hop. From 0 to 1, going down, it takes the next network: 16 on a board with one.
 * n = 260 is 4 once narrowed. */

static const struct order net_hop_orders[] = {
    {.first = 1, .second = 15, .n = 0, .networks_more = 5},
    {.first = 1, .second = 15, .n = 13, .network = 1},
    {.first = 1, .second = 15, .n = 260, .down = 2},
    {.first = 1, .second = 19, .n = 0, .job = 2},
    {.first = 1, .second = 19, .n = 260, .d = 1, .job = 256},
    {.first = 1, .second = 2, .n = 0, .labels_more = 1},
    {.first = 1, .second = 2, .n = 13, .labels_more = -8192},
    {.first = 1, .second = 5, .n = 260, .s = 16},
    {.first = 1, .second = 4, .n = 260, .d = 1, .labels = "xxxxxxxxxxxxxxxx"},
    {.first = 1, .second = 6, .n = 260, .d = 1, .labels = "3"},
    {.first = 1, .second = 16, .n = 260, .d = 1, .down = 1},
    {.first = 15, .second = 19, .n = 2, .networks_more = -1u, .job = 2},
    {.first = 15, .second = 19, .n = 2, .networks_more = 5, .job = 256},
    {.first = 15, .second = 19, .n = 2, .network = 1, .job = 3},
    {.first = 15, .second = 19, .n = 2, .down = 2, .job = 2},
    {.first = 15, .second = 2, .n = 2, .networks_more = 5, .labels_more = 1},
    {.first = 15, .second = 2, .n = 2, .networks_more = -1u, .labels_more = -4},
    {.first = 15, .second = 2, .n = 2, .network = 1, .labels_more = -1},
    {.first = 15, .second = 2, .n = 2, .down = 2, .labels_more = -8},
    {.first = 15, .second = 5, .n = 2, .networks_more = 256, .s = 4},
    {.first = 15, .second = 5, .n = 2, .network = 1, .d = 4},
    {.first = 15, .second = 5, .n = 2, .down = 256, .d = 4},
    {.first = 15, .second = 4, .n = 2, .networks_more = 5, .labels = "xxxx"},
    {.first = 15, .second = 4, .n = 2, .network = 5, .labels = "0x00"},
    {.first = 15, .second = 4, .n = 2, .down = 2, .labels = "00x0"},
    {.first = 15, .second = 6, .n = 2, .networks_more = 5, .d = 1, .labels = "3"},
    {.first = 15, .second = 6, .n = 2, .network = 1, .d = 1, .labels = "4"},
    {.first = 15, .second = 6, .n = 2, .down = 3, .d = 1, .labels = "3"},
    {.first = 15, .second = 16, .n = 2, .network = 1, .d = 1, .down = 1},
    {.first = 15, .second = 16, .n = 2, .network = 1, .d = 1, .down = 0},
    {.first = 15, .second = 16, .n = 2, .networks_more = 5, .network = 5, .d = 1,
     .down = 1},
    {.first = 15, .second = 16, .n = 2, .networks_more = 256, .d = 1, .down = 1},
    {.first = 15, .second = 16, .n = 2, .d = 1, .down = 257},
    {.first = 19, .second = 2, .n = 2, .job = 2, .labels_more = 1},
    {.first = 19, .second = 2, .n = 2, .job = 257, .labels_more = -4},
    {.first = 19, .second = 5, .n = 2, .job = 2, .s = 4},
    {.first = 19, .second = 5, .n = 2, .job = 1u << 31, .d = 4},
    {.first = 19, .second = 4, .n = 2, .job = 2, .labels = "xxxx"},
    {.first = 19, .second = 6, .n = 2, .job = 256, .d = 1, .labels = "3"},
    {.first = 19, .second = 16, .n = 2, .job = 2, .d = 1, .down = 1},
    {.first = 19, .second = 16, .n = 2, .job = 65537, .d = 1, .down = 1},
    {.first = 2, .second = 5, .n = 2, .s = 4, .labels_more = 1},
    {.first = 2, .second = 5, .n = 2, .d = 4, .labels_more = -4},
    {.first = 2, .second = 4, .n = 2, .labels = "x", .labels_more = 1},
    {.first = 2, .second = 6, .n = 2, .d = 1, .labels = "3", .labels_more = 8},
    {.first = 2, .second = 16, .n = 2, .d = 1, .down = 1, .labels_more = 1},
    {.first = 2, .second = 16, .n = 2, .d = 1, .down = 1, .labels_more = -4},
    {.first = 5, .second = 4, .n = 2, .d = 4, .labels = "xxxx"},
    {.first = 5, .second = 4, .n = 2, .s = 4, .labels = "xxxx"},
    {.first = 5, .second = 6, .n = 2, .d = 4, .labels = "3"},
    {.first = 5, .second = 16, .n = 2, .d = 4 + 1, .down = 1},
    {.first = 5, .second = 16, .n = 2, .s = 65536, .d = 1, .down = 1},
    {.first = 4, .second = 6, .n = 2, .d = 3, .labels = "3x00"},
    {.first = 4, .second = 6, .n = 2, .labels = "30x0"},
    {.first = 4, .second = 6, .n = 2, .d = 3, .labels = "4x00"},
    {.first = 4, .second = 16, .n = 2, .d = 1, .down = 1, .labels = "00x0"},
    {.first = 4, .second = 16, .n = 3, .d = 1, .down = 1, .labels = "0000x"},
    {.first = 6, .second = 16, .n = 2, .d = 1, .down = 1, .labels = "3"},
    {.first = 6, .second = 16, .n = 2, .d = 1, .down = 1, .labels = "4"},
    {.first = 6, .second = 16, .n = 2, .d = 1, .down = 1, .labels = "44"},
};

static uint64_t net_hop_answer(const struct order *order, uint32_t job)
{
    struct net_hop_question asked =
        fit_net_hop(order->n & 255, order->s, order->d, none);
    asked.n = order->n;
    asked.networks = 1 + order->networks_more;
    asked.job = job;
    asked.network = order->network;
    asked.down = order->down;
    asked.labels = labels_of(order, job);
    asked.labels_len += (size_t)order->labels_more;
    return check_net_hop(asked);
}

/* ---- walk. 0003 goes from 2 down to 0, and up from there to 1: 16 on a board with one
 * network. */

static const struct order net_walk_orders[] = {
    {.first = 1, .second = 15, .n = 0, .networks_more = 5},
    {.first = 1, .second = 15, .n = 13, .networks_more = -1u},
    {.first = 1, .second = 19, .n = 0, .job = 2},
    {.first = 1, .second = 2, .n = 0, .labels_more = 1},
    {.first = 1, .second = 2, .n = 13, .labels_more = -8192},
    {.first = 1, .second = 13, .n = 13, .hops_more = -2},
    {.first = 1, .second = 13, .n = 260, .hops_more = -1},
    {.first = 1, .second = 5, .n = 260, .s = 16},
    {.first = 1, .second = 4, .n = 260, .d = 1, .labels = "000000000000000x"},
    {.first = 1, .second = 6, .n = 260, .d = 1, .labels = "3"},
    {.first = 1, .second = 7, .n = 260, .d = 1, .labels = "03"},
    {.first = 1, .second = 16, .n = 258, .s = 2, .d = 1, .labels = "0003"},
    {.first = 15, .second = 19, .n = 2, .networks_more = -1u, .job = 2},
    {.first = 15, .second = 19, .n = 2, .networks_more = 5, .job = 257},
    {.first = 15, .second = 2, .n = 2, .networks_more = 5, .labels_more = 1},
    {.first = 15, .second = 2, .n = 2, .networks_more = -1u, .labels_more = -4},
    {.first = 15, .second = 13, .n = 2, .networks_more = 5, .hops_more = -1},
    {.first = 15, .second = 13, .n = 2, .networks_more = 5, .hops_more = -24},
    {.first = 15, .second = 13, .n = 2, .networks_more = 256, .hops_more = -1},
    {.first = 15, .second = 5, .n = 2, .networks_more = 5, .s = 4},
    {.first = 15, .second = 4, .n = 2, .networks_more = 5, .labels = "000x"},
    {.first = 15, .second = 6, .n = 2, .networks_more = -1u, .labels = "3"},
    {.first = 15, .second = 7, .n = 2, .networks_more = 5, .d = 1, .labels = "03"},
    {.first = 15, .second = 16, .n = 2, .networks_more = -1u, .d = 1},
    {.first = 15, .second = 16, .n = 2, .networks_more = 256, .s = 2, .d = 1,
     .labels = "0003"},
    {.first = 19, .second = 2, .n = 2, .job = 2, .labels_more = -4},
    {.first = 19, .second = 13, .n = 2, .job = 2, .hops_more = -1},
    {.first = 19, .second = 13, .n = 2, .job = 256, .hops_more = -4},
    {.first = 19, .second = 5, .n = 2, .job = 2, .s = 4},
    {.first = 19, .second = 4, .n = 2, .job = 256, .labels = "000x"},
    {.first = 19, .second = 6, .n = 2, .job = 257, .labels = "3"},
    {.first = 19, .second = 7, .n = 2, .job = 2, .d = 1, .labels = "03"},
    {.first = 19, .second = 16, .n = 2, .job = 2, .s = 2, .d = 1, .labels = "0003"},
    {.first = 19, .second = 16, .n = 2, .job = 65536, .s = 2, .d = 1,
     .labels = "0003"},
    {.first = 2, .second = 13, .n = 2, .labels_more = 1, .hops_more = -1},
    {.first = 2, .second = 13, .n = 2, .labels_more = -4, .hops_more = -4},
    {.first = 2, .second = 5, .n = 2, .s = 4, .labels_more = 1},
    {.first = 2, .second = 4, .n = 2, .labels = "000x", .labels_more = -4},
    {.first = 2, .second = 6, .n = 2, .labels = "3", .labels_more = 1},
    {.first = 2, .second = 7, .n = 2, .d = 1, .labels = "03", .labels_more = -1},
    {.first = 2, .second = 16, .n = 2, .s = 2, .d = 1, .labels = "0003",
     .labels_more = 1},
    {.first = 13, .second = 5, .n = 2, .s = 4, .hops_more = -1},
    {.first = 13, .second = 5, .n = 2, .d = 4, .hops_more = -4},
    {.first = 13, .second = 5, .n = 2, .networks_more = 4, .d = 4, .hops_more = -16},
    {.first = 13, .second = 4, .n = 2, .labels = "000x", .hops_more = -1},
    {.first = 13, .second = 4, .n = 2, .labels = "x", .hops_more = -3},
    {.first = 13, .second = 6, .n = 2, .labels = "3", .hops_more = -1},
    {.first = 13, .second = 6, .n = 2, .labels = "4", .hops_more = -4},
    {.first = 13, .second = 7, .n = 2, .d = 1, .labels = "03", .hops_more = -1},
    {.first = 13, .second = 16, .n = 2, .s = 2, .d = 1, .labels = "0003",
     .hops_more = -1},
    {.first = 5, .second = 4, .n = 2, .s = 4, .labels = "000x"},
    {.first = 5, .second = 6, .n = 2, .d = 4, .labels = "3"},
    {.first = 5, .second = 7, .n = 2, .s = 4, .d = 1, .labels = "03"},
    {.first = 5, .second = 16, .n = 2, .s = 2, .d = 4 + 1, .labels = "0003"},
    {.first = 4, .second = 6, .n = 2, .labels = "300x"},
    {.first = 4, .second = 7, .n = 2, .d = 1, .labels = "030x"},
    {.first = 4, .second = 16, .n = 3, .s = 2, .d = 1, .labels = "0003000x"},
    {.first = 6, .second = 7, .n = 2, .labels = "3"},
    {.first = 6, .second = 7, .n = 2, .d = 1, .labels = "43"},
    {.first = 6, .second = 16, .n = 2, .s = 2, .d = 1, .labels = "0033"},
    {.first = 6, .second = 16, .n = 2, .s = 2, .d = 1, .labels = "0043"},
    {.first = 7, .second = 16, .n = 2, .s = 2, .d = 1, .labels = "0303"},
};

static uint64_t net_walk_answer(const struct order *order, uint32_t job)
{
    static uint8_t hops[4096];
    uint32_t networks = 1 + order->networks_more;
    struct net_walk_question asked =
        fit_net_walk(order->n & 255, networks & 255 ? networks & 255 : 1, order->s,
                     order->d, none, hops);
    random_bytes(hops, sizeof hops);
    asked.n = order->n;
    asked.networks = networks;
    asked.job = job;
    asked.labels = labels_of(order, job);
    asked.labels_len += (size_t)order->labels_more;
    asked.hops_len += (size_t)order->hops_more;
    return check_net_walk(asked);
}

void check_network_orders(void)
{
    check_order(NET_HOP, net_hop_answer, net_hop_orders, COUNT(net_hop_orders));
    check_order(NET_WALK, net_walk_answer, net_walk_orders, COUNT(net_walk_orders));
}
