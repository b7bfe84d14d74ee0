/*
 * plain_networks.c: the library's algorithm in plain C, to measure the archive
 * against: hop and walk by virtual networks. PREFIX is the prefix of the functions'
 * names.
 */
#include <string.h>

#include "around.h"

enum { MOST_NETWORKS = 5, MOST_HOPS = 120, NONE = 0xff };

/* Where a message is, and how it came there. */
struct message {
    uint32_t c, network, down;
};

/* Both functions below give a hop, network * 16 + dimension, or NONE. */

/* FORWARD for the dimensions of the set, l being the distance. */
static uint32_t forwarded(uint32_t n, struct message at, uint32_t set,
                          uint32_t l, const struct around *around)
{
    uint32_t on = set & (at.down ? at.c : at.c ^ ((1u << n) - 1));
    uint32_t turning = set ^ on, i;
    uint32_t here = 16 * at.network, next = here + 16 * at.down;
    if ((i = scan(n, on, SAFE, around)) < n)
        return here + i;
    if ((i = scan(n, turning, SAFE, around)) < n)
        return next + i;
    if ((i = scan(n, on, ORDINARY, around)) < n)
        return here + i;
    if ((i = scan(n, turning, ORDINARY, around)) < n)
        return !at.down || !at.network || l <= 2 ? next + i : NONE;
    if (around->own != STRONG && l > 2)
        return NONE;
    if ((i = scan(n, on, STRONG, around)) < n)
        return here + i;
    if ((i = scan(n, turning, STRONG, around)) < n)
        return !at.down || l <= 2 ? next + i : NONE;
    return NONE;
}

static uint32_t chosen(uint32_t n, struct message at, uint32_t d,
                       const struct around *around)
{
    uint32_t forward = at.c ^ d, spare = forward ^ ((1u << n) - 1);
    uint32_t l = (uint32_t)__builtin_popcount(forward), hop;
    if (l == 1) { /* then the neighbour across it is d */
        uint32_t i = (uint32_t)__builtin_ctz(forward), up = forward & d;
        if (around->neighbour[i] == DRAINING)
            return 16 * (at.network + (at.down && up)) + i;
    }
    hop = forwarded(n, at, forward, l, around);
    return hop != NONE ? hop : forwarded(n, at, spare, l, around);
}

uint32_t NAME(hop_networks)(uint32_t n, uint32_t networks, uint32_t job,
                            uint32_t c, uint32_t d, uint32_t network,
                            uint32_t down, const uint8_t *labels,
                            size_t labels_len)
{
    struct message at = {c, network, down};
    struct around around;
    uint32_t hop;
    if (n < 1 || n > 12)
        return refused(1);
    if (networks < 1 || networks > MOST_NETWORKS || network >= networks || down > 1)
        return refused(15);
    if (job > 1)
        return refused(19);
    if (labels_len != 2u << n)
        return refused(2);
    if (c >> n || d >> n)
        return refused(5);
    labels += (size_t)job << n;
    if (!gather(n, c, labels, &around))
        return refused(4);
    if (around.own == FAULTY || (around.own == DRAINING && c != d))
        return refused(6);
    if (c == d)
        return DELIVER << 16;
    hop = chosen(n, at, d, &around);
    if (hop == NONE)
        return HALTED << 16;
    return hop >> 4 < networks ? (HOP << 16) + hop : refused(16);
}

uint32_t NAME(walk_networks)(uint32_t n, uint32_t networks, uint32_t job,
                             uint32_t s, uint32_t d, const uint8_t *labels,
                             size_t labels_len, uint8_t *hops, size_t hops_len)
{
    uint8_t found[MOST_HOPS];
    struct message at = {s, 0, 0};
    struct around around;
    uint32_t count = 0, hop;
    if (n < 1 || n > 12)
        return refused(1);
    if (networks < 1 || networks > MOST_NETWORKS)
        return refused(15);
    if (job > 1)
        return refused(19);
    if (labels_len != 2u << n)
        return refused(2);
    if (hops_len < 2 * n * networks)
        return refused(13);
    if (s >> n || d >> n)
        return refused(5);
    labels += (size_t)job << n;
    if (!all_labels(labels, (size_t)1 << n))
        return refused(4);
    if (labels[s] >= FAULTY)
        return refused(6);
    if (labels[d] == FAULTY)
        return refused(7);
    while (at.c != d) {
        gather(n, at.c, labels, &around);
        hop = chosen(n, at, d, &around);
        if (hop == NONE)
            break;
        if (hop >> 4 >= networks)
            return refused(16);
        found[count++] = (uint8_t)hop;
        at.network = hop >> 4;
        at.down = at.c >> (hop & 15) & 1;
        at.c ^= 1u << (hop & 15);
    }
    memcpy(hops, found, count);
    return (at.c == d ? 0 : 0x10000) + count;
}
