/*
 * plain_hop.c: the library's algorithm in plain C, to measure the archive
 * against: hop, why it is taken, and walk. PREFIX is the prefix of the
 * functions' names.
 */
#include "around.h"

/* ---- one hop, from a copy of the labels around it */

/* The dimension to hop across, forward ones being where c and d differ; or n. */
static uint32_t chosen(uint32_t n, uint32_t forward,
                       const struct around *around)
{
    uint32_t spare = forward ^ ((1u << n) - 1), i;
    if (!(forward & (forward - 1))) { /* then the neighbour across it is d */
        i = (uint32_t)__builtin_ctz(forward);
        if (around->neighbour[i] == DRAINING)
            return i;
    }
    if ((i = scan(n, forward, SAFE, around)) < n)
        return i;
    if ((i = scan(n, forward, ORDINARY, around)) < n)
        return i;
    if (around->own == STRONG || __builtin_popcount(forward) <= 2)
        if ((i = scan(n, forward, STRONG, around)) < n)
            return i;
    if ((i = scan(n, spare, SAFE, around)) < n)
        return i;
    return scan(n, spare, ORDINARY, around);
}

uint32_t NAME(hop)(uint32_t n, uint32_t job, uint32_t c, uint32_t d,
                   const uint8_t *labels, size_t labels_len)
{
    struct around around;
    uint32_t i;
    if (n < 1 || n > 12)
        return refused(1);
    if (job > 1)
        return refused(19);
    if (labels_len != 2u << n)
        return refused(2);
    if (c >> n || d >> n)
        return refused(5);
    labels += (size_t)job << n;
    if (!gather(n, c, labels, &around))
        return refused(4);
    if (around.own == FAULTY || (around.own == DRAINING && c != d))
        return refused(6);
    if (c == d)
        return DELIVER << 16;
    i = chosen(n, c ^ d, &around);
    return i < n ? (HOP << 16) + i : HALTED << 16;
}

/* ---- why it is taken: the hop, with the scan that decides */

/* The same as chosen, with the scan beside the dimension; or n. */
static uint32_t taken(uint32_t n, uint32_t forward, const struct around *around)
{
    uint32_t spare = forward ^ ((1u << n) - 1), i;
    if (!(forward & (forward - 1))) {
        i = (uint32_t)__builtin_ctz(forward);
        if (around->neighbour[i] == DRAINING)
            return i;
    }
    if ((i = scan(n, forward, SAFE, around)) < n)
        return 0x100 + i;
    if ((i = scan(n, forward, ORDINARY, around)) < n)
        return 0x200 + i;
    if (around->own == STRONG || __builtin_popcount(forward) <= 2)
        if ((i = scan(n, forward, STRONG, around)) < n)
            return 0x300 + i;
    if ((i = scan(n, spare, SAFE, around)) < n)
        return 0x400 + i;
    i = scan(n, spare, ORDINARY, around);
    return i < n ? 0x500 + i : n;
}

uint32_t NAME(why_hop)(uint32_t n, uint32_t job, uint32_t c, uint32_t d,
                       const uint8_t *labels, size_t labels_len)
{
    struct around around;
    uint32_t found;
    if (n < 1 || n > 12)
        return refused(1);
    if (job > 1)
        return refused(19);
    if (labels_len != 2u << n)
        return refused(2);
    if (c >> n || d >> n)
        return refused(5);
    labels += (size_t)job << n;
    if (!gather(n, c, labels, &around))
        return refused(4);
    if (around.own == FAULTY || (around.own == DRAINING && c != d))
        return refused(6);
    if (c == d)
        return DELIVER << 16;
    found = taken(n, c ^ d, &around);
    return found != n ? (HOP << 16) + found : HALTED << 16;
}

/* ---- walk */

uint32_t NAME(walk)(uint32_t n, uint32_t job, uint32_t s, uint32_t d,
                    const uint8_t *labels, size_t labels_len,
                    uint8_t *row, size_t row_len)
{
    uint16_t places[17] = {0};
    uint32_t hops = 0, c = s, i;
    struct around around;
    if (n < 1 || n > 12)
        return refused(1);
    if (job > 1)
        return refused(19);
    if (labels_len != 2u << n || row_len != 34)
        return refused(2);
    if (s >> n || d >> n)
        return refused(5);
    labels += (size_t)job << n;
    if (!all_labels(labels, (size_t)1 << n))
        return refused(4);
    if (labels[s] >= FAULTY)
        return refused(6);
    if (labels[d] == FAULTY)
        return refused(7);
    places[0] = (uint16_t)s;
    while (c != d) {
        gather(n, c, labels, &around);
        i = chosen(n, c ^ d, &around);
        if (i == n)
            break;
        if (hops == n + 4)
            return refused(8);
        c ^= 1u << i;
        places[++hops] = (uint16_t)c;
    }
    for (unsigned k = 0; k < 17; k++) {
        row[2 * k] = (uint8_t)places[k];
        row[2 * k + 1] = (uint8_t)(places[k] >> 8);
    }
    return (c == d ? 0 : 0x10000) + hops;
}
