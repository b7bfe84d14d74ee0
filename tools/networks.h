/*
 * networks.h: what networks.c and networks_climb.c do alike: random fault tables, and
 * walks with five networks, each of which is held against what is proved. Labels and
 * walks are the library's, by the rule of Chiu and Wu, with nothing draining or closed.
 */
#ifndef NETWORKS_H
#define NETWORKS_H

#include <inttypes.h>
#include <stdio.h>
#include <stdlib.h>
#include <string.h>

#include "hcube.h"
#include "random.h"

#define SMALL 64 /* of a cube of so many nodes all pairs are walked */

/* ---- one fault table */

static uint32_t n, nodes, working;      /* the cube; how many of its nodes work */
static uint32_t order[HCUBE_NODES_MAX]; /* its nodes, those that work first */
static uint8_t faults[HCUBE_FAULT_BYTES_MAX], empty[HCUBE_FAULT_BYTES_MAX];
static uint8_t labels[HCUBE_LABEL_BYTES_MAX];
static int some_safe;

static void set_dimension(uint32_t dimension, uint64_t seed)
{
    n = dimension;
    nodes = 1u << n;
    state = (seed << 32) + n;
}

static int is_faulty(uint32_t k)
{
    return faults[k / 8] >> k % 8 & 1;
}

static void print_faulty(FILE *out)
{
    for (uint32_t k = 0; k < nodes; k++)
        if (is_faulty(k))
            fprintf(out, " %" PRIu32, k);
}

/* Says what should not be, of a walk or, where s is d, of the table. */
static void broken(const char *what, uint32_t s, uint32_t d)
{
    fprintf(stderr, "networks: %s: n = %" PRIu32, what, n);
    if (s != d)
        fprintf(stderr, ", from %" PRIu32 " to %" PRIu32, s, d);
    fprintf(stderr, ", faulty");
    print_faulty(stderr);
    fprintf(stderr, "\n");
    exit(1);
}

/* Labels the cube by `faults`, and puts its working nodes in front. */
static void label(void)
{
    size_t bytes = HCUBE_FAULT_BYTES(n);
    uint32_t answer = hcube_label(n, HCUBE_RULE_CHIU_WU, 0, faults, bytes, empty, bytes,
                                  empty, bytes, labels, HCUBE_LABEL_BYTES(n));
    if (HCUBE_REFUSAL(answer) != HCUBE_ACCEPTED)
        broken("labelling is refused", 0, 0);
    some_safe = memchr(labels, HCUBE_SAFE, nodes) != NULL;
    working = 0;
    for (uint32_t k = 0, last = nodes; k < nodes; k++)
        order[is_faulty(k) ? --last : working++] = k;
}

static void flip(uint32_t k)
{
    faults[k / 8] ^= (uint8_t)(1 << k % 8);
}

/* So many random faulty nodes of these. */
static void random_table(const uint32_t *of, uint32_t of_count, uint32_t count)
{
    memset(faults, 0, sizeof faults);
    while (count) {
        uint32_t k = of[random_below(of_count)];
        if (!is_faulty(k)) {
            flip(k);
            count--;
        }
    }
    label();
}

/* ---- one walk */

/* What became of a walk: delivered within 1 to 5 networks, or one of these. */
enum { HALTED = HCUBE_NETWORKS_MAX + 1, MORE, KINDS };

static uint32_t distance(uint32_t s, uint32_t d)
{
    uint32_t count = 0;
    for (uint32_t bits = s ^ d; bits; bits &= bits - 1)
        count++;
    return count;
}

/* Where so many hops lead from s; and the pair of network and direction of the last, two
 * for each network, up before down. It never goes back, so it is the highest. */
static uint32_t follow(uint32_t s, uint32_t d, const uint8_t *hops, uint32_t count,
                       uint32_t *pair)
{
    uint32_t at = s;
    for (uint32_t k = 0; k < count; k++) {
        uint32_t i = HCUBE_HOP_DIMENSION(hops[k]);
        uint32_t next = 2 * HCUBE_HOP_NETWORK(hops[k]) + (at >> i & 1);
        if (next < *pair)
            broken("a walk goes back to a network or a direction", s, d);
        *pair = next;
        at ^= 1u << i;
    }
    return at;
}

/* Walks with five networks. The pair goes to the caller too; 0 where it is refused. */
static unsigned walk(uint32_t s, uint32_t d, uint32_t *pair)
{
    uint8_t hops[HCUBE_HOPS_BYTES_MAX];
    uint32_t answer = hcube_walk_networks(n, HCUBE_NETWORKS_MAX, 0, s, d, labels,
                                          HCUBE_LABEL_BYTES(n), hops, sizeof hops);
    uint32_t refusal = HCUBE_REFUSAL(answer), count = HCUBE_VALUE(answer);
    int delivered = !refusal && HCUBE_KIND(answer) == HCUBE_WALK_DELIVERED;
    *pair = 0;
    if (refusal != HCUBE_ACCEPTED && refusal != HCUBE_NO_NETWORK)
        broken("a walk is refused", s, d);
    if (some_safe && !delivered)
        broken("some node is safe, and a frame is lost", s, d);
    if (some_safe && count > distance(s, d) + 2 * labels[s])
        broken("some node is safe, and a walk is too long", s, d);
    if (refusal)
        return MORE;
    if ((follow(s, d, hops, count, pair) == d) != delivered)
        broken("the hops do not lead where the answer says", s, d);
    return delivered ? *pair / 2 + 1 : HALTED;
}

/* The exit status, once all is printed. */
static int written(void)
{
    if (fflush(stdout) == 0 && !ferror(stdout))
        return 0;
    perror("networks: the table could not be written");
    return 2;
}

#endif
