/*
 * networks_refused.c: hop and walk by virtual networks with all that they refuse, in
 * every combination. What is due stands here once more, as in combinations.c.
 */
#include <string.h>

#include "cases.h"
#include "check.h"
#include "combinations.h"
#include "groups.h"
#include "lent.h"

static uint8_t labels[MOST_LENT], hops[MOST_LENT];

static const uint32_t some_jobs[] = {0, 1, 2, 256, 257};

/* What both refuse up to the length of the label buffer, in order. */
static unsigned board_due(uint32_t n, int no_board, uint32_t job, unsigned length)
{
    if (n < 1 || n > 12)
        return 1;
    if (no_board)
        return 15;
    if (job > 1)
        return 19;
    return length != RIGHT ? 2 : 0;
}

/* ---- hop */

/* A board, and where the message is on it: right ones first. */
static const struct place {
    uint32_t networks, network, down;
} places[] = {{1, 0, 0}, {1, 0, 1}, {5, 4, 1}, {5, 3, 1}, {2, 1, 0},
              {0, 0, 0}, {6, 0, 0}, {6, 5, 1}, {1, 1, 1}, {5, 5, 0}, {3, 255, 0},
              {3, 257, 0}, {257, 0, 1}, {261, 4, 0}, {1, 0, 2}, {1, 0, 256},
              {2, 0, 257}, {0, 0, 2}};
#define RIGHT_PLACES 5u

/* At 0, by the labels at hand. To 1 it goes up. */
static unsigned net_hop_due(struct net_hop_question asked, unsigned place,
                            unsigned length)
{
    unsigned due = board_due(asked.n, place >= RIGHT_PLACES, asked.job, length);
    if (due != 0)
        return due;
    if (asked.c >> asked.n || asked.d >> asked.n)
        return 5;
    if (labels[0] > LAST_LABEL || labels[1u << (asked.n - 1)] > LAST_LABEL)
        return 4;
    if (labels[0] == 3 || (labels[0] == 4 && asked.d != 0))
        return 6;
    return asked.d == 1 && asked.down == 1 && asked.network + 1 == asked.networks
               ? 16
               : 0;
}

/* From 0, or from 2^n, which is no node, to 0, 1 or 2^n. The label of 0 varies, and
 * its last neighbour may have none. */
static unsigned all_net_hops(unsigned from)
{
    static const uint8_t own[] = {0, 3, 4, LAST_LABEL + 1};
    struct net_hop_question asked;
    unsigned place, length, ends;
    uint32_t n, fitting, job;
    number = from;
    n = ANY_OF(small_ones);
    fitting = n & 255;
    place = part(COUNT(places));
    job = ANY_OF(some_jobs);
    length = part(EMPTY);
    ends = part(6);
    memset(labels, 0, HCUBE_NODES(fitting));
    if (part(2))
        labels[HCUBE_NODES(fitting) / 2] = 0xff;
    labels[0] = ANY_OF(own);
    asked = fit_net_hop(fitting, ends % 2 << fitting,
                        ends / 2 < 2 ? ends / 2 : 1u << fitting, labels);
    asked.n = n;
    asked.networks = places[place].networks;
    asked.network = places[place].network;
    asked.down = places[place].down;
    asked.job = job;
    asked.labels = buffer_of(fitting, job, labels);
    asked.labels_len = length_of(length, asked.labels_len);
    if (number == 0)
        is_due("hop by networks", from, check_net_hop(asked),
               net_hop_due(asked, place, length));
    return number;
}

/* ---- walk */

static const uint32_t boards[] = {1, 2, 0, 6, 257};

/* From 2 to 1 by the labels at hand, of which the last may be none. 3 is faulty, so
 * that the walk goes down to 0 and then up, in network 1. */
static unsigned net_walk_due(struct net_walk_question asked, unsigned length,
                             int no_room)
{
    unsigned due = board_due(asked.n, asked.networks < 1 || asked.networks > 5,
                             asked.job, length);
    if (due != 0)
        return due;
    if (no_room)
        return 13;
    if (asked.s >> asked.n || asked.d >> asked.n)
        return 5;
    if (labels[HCUBE_NODES(asked.n) - 1] > LAST_LABEL)
        return 4;
    if (labels[2] >= 3)
        return 6;
    return labels[1] == 3 ? 7 : asked.networks == 1 ? 16 : 0;
}

static unsigned all_net_walks(unsigned from)
{
    static const uint32_t cubes[] = {2, 3, 0, 13, 258};
    static const uint8_t of_end[] = {0, 3, 4};
    struct net_walk_question asked;
    unsigned length, room, ends;
    uint32_t n, fitting, networks, job;
    number = from;
    n = ANY_OF(cubes);
    fitting = n & 255;
    networks = ANY_OF(boards);
    job = ANY_OF(some_jobs);
    length = part(EMPTY);
    room = part(LENGTHS);
    ends = part(4);
    memset(labels, 0, HCUBE_NODES(fitting) + 4);
    labels[1] = ANY_OF(of_end);
    labels[2] = ANY_OF(of_end);
    labels[3] = 3;
    if (part(2))
        labels[HCUBE_NODES(fitting) - 1] = LAST_LABEL + 1;
    asked = fit_net_walk(fitting, networks % 6 ? networks % 6 : 1,
                         ends % 2 ? 1u << fitting : 2, ends / 2 ? 1u << fitting : 1,
                         labels, hops);
    asked.n = n;
    asked.networks = networks;
    asked.job = job;
    asked.labels = buffer_of(fitting, job, labels);
    asked.labels_len = length_of(length, asked.labels_len);
    if (fitting > 0)
        asked.hops_len = length_of(room, asked.hops_len);
    if (number == 0)
        is_due("walk by networks", from, check_net_walk(asked),
               net_walk_due(asked, length,
                            room == SHORT || room == HALVED || room == EMPTY));
    return number;
}

void check_net_hop_combinations(void)
{
    check_all("hop by networks, all that is refused in every combination",
              all_net_hops);
}

void check_net_walk_combinations(void)
{
    random_bytes(hops, sizeof hops);
    check_all("walk by networks, all that is refused in every combination",
              all_net_walks);
}
