/*
 * around.h: what hop, walk and their questions by networks do alike in plain C: the
 * labels around a node, copied once, and a scan of them.
 */
#ifndef AROUND_H
#define AROUND_H

#include "plain.h"

enum { DELIVER, HOP, HALTED };

struct around {
    uint8_t own;
    uint8_t neighbour[12];
};

static int all_labels(const uint8_t *labels, size_t count)
{
    uint8_t largest = 0;
    for (size_t k = 0; k < count; k++)
        if (labels[k] > largest)
            largest = labels[k];
    return largest <= DRAINING;
}

/* Reads the n + 1 labels; whether each is one. Where none is draining they show
 * it at once, joined; otherwise they are looked at one by one. */
static int gather(uint32_t n, uint32_t c, const uint8_t *labels,
                  struct around *around)
{
    uint8_t bits = around->own = labels[c];
    for (uint32_t i = 0, step = 1; i < n; i++, step += step)
        bits |= around->neighbour[i] = labels[c ^ step];
    return bits <= DRAINING ||
           (around->own <= DRAINING && all_labels(around->neighbour, n));
}

/* First dimension of the set whose neighbour has this label at most; else n. */
static uint32_t scan(uint32_t n, uint32_t dimensions, uint8_t most,
                     const struct around *around)
{
    for (; dimensions; dimensions &= dimensions - 1) {
        uint32_t i = (uint32_t)__builtin_ctz(dimensions);
        if (around->neighbour[i] <= most)
            return i;
    }
    return n;
}

#endif
