/*
 * networks.c: hop and walk by virtual networks, five of them, as the archive and the two
 * C builds do.
 */
#include <stdio.h>
#include <string.h>

#include "../include/hcube.h"
#include "plain.h"
#include "sides.h"
#include "times.h"

#define PAIRS 512u
#define NETWORKS HCUBE_NETWORKS_MAX

static size_t label_bytes;
static uint8_t labels[HCUBE_LABEL_BYTES(12)], hops[HCUBE_HOPS_BYTES_MAX];
static uint32_t from[PAIRS], to[PAIRS];

/* ---- the questions of the three sides */

/* The message of a hop came in one network and direction or another. */
#define HOP(prefix, k)                                                         \
    prefix##hop_networks(n, NETWORKS, job, from[k], to[k], (k) / 2 % NETWORKS, \
                         (k) % 2, labels, label_bytes)
#define WALK(prefix, k)                                                        \
    prefix##walk_networks(n, NETWORKS, job, from[k], to[k], labels,            \
                          label_bytes, hops, sizeof hops)

static uint32_t hop_all(int side)
{
    uint32_t sum = 0;
    for (unsigned k = 0; k < PAIRS; k++)
        sum = sum * 31 + (side == ARCHIVE ? HOP(hcube_, k)
                          : side == GCC   ? HOP(gcc_, k)
                                          : HOP(clang_, k));
    return sum;
}

static uint32_t walk(int side, unsigned k)
{
    return side == ARCHIVE ? WALK(hcube_, k)
           : side == GCC   ? WALK(gcc_, k)
                           : WALK(clang_, k);
}

static uint32_t walk_all(int side)
{
    uint32_t sum = 0;
    for (unsigned k = 0; k < PAIRS; k++)
        sum = sum * 31 + walk(side, k);
    return sum;
}

/* Byte for byte the hops that the archive leaves. */
static void expect_hops(void)
{
    uint8_t first[sizeof hops];
    for (unsigned k = 0; k < PAIRS; k++)
        for (int side = ARCHIVE; side < SIDES; side++) {
            memset(hops, UNTOUCHED, sizeof hops);
            walk(side, k);
            if (side == ARCHIVE)
                memcpy(first, hops, sizeof hops);
            expect(memcmp(first, hops, sizeof hops) == 0, "hops by networks");
        }
}

/* ---- a row */

/* A node that works or, where that will do, is draining. */
static uint32_t random_end(const uint8_t *half, int draining_too)
{
    uint32_t k;
    do
        k = random_node();
    while (half[k] == HCUBE_FAULTY || (half[k] == HCUBE_DRAINING && !draining_too));
    return k;
}

static void prepare(void)
{
    size_t bytes = HCUBE_FAULT_BYTES(n);
    const uint8_t *half = labels + HCUBE_HALF(n, job);
    label_bytes = HCUBE_LABEL_BYTES(n);
    hcube_label(n, rule, job, faults, bytes, draining, bytes, closed, bytes, labels,
                label_bytes);
    for (unsigned k = 0; k < PAIRS; k++) {
        from[k] = random_end(half, 0);
        to[k] = random_end(half, 1);
    }
    expect_alike(hop_all, "hop by networks");
    expect_alike(walk_all, "walk by networks");
    expect_hops();
}

void print_networks_row(const char *name)
{
    prepare();
    printf("%2u %3u %-16s", n, job, name);
    measure(hop_all, PAIRS);
    measure(walk_all, PAIRS);
    printf("\n");
    fflush(stdout);
}
