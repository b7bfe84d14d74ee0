/*
 * plain.c: the library's algorithm in plain C, to measure the archive against:
 * labelling, and why a node has its label. Hop and walk are in plain_hop.c, those by
 * networks in plain_networks.c, the notice in plain_notice.c. PREFIX is the prefix of
 * the functions' names.
 */
#include "plain.h"

enum { MARKED = STRONG, FRESH = 128 }; /* while the exchanges go on */

/* ---- labelling, in the job's half of the lent buffer */

/* Two faulty neighbours, or as many as the rule names that are faulty or marked:
 * a byte is what it weighs, and twice the rule is enough. A fresh one, 128,
 * leaves the bit that tells. */
static int meets_rule(uint32_t n, uint32_t rule, uint32_t k,
                      const uint8_t *labels)
{
    unsigned weight = 64 - 2 * rule;
    for (uint32_t bit = 1; bit < 1u << n; bit *= 2) {
        weight += labels[k ^ bit];
        if (weight & 64)
            return 1;
    }
    return 0;
}

static int sweep(uint32_t n, uint32_t rule, uint8_t *labels, size_t nodes)
{
    int something_new = 0;
    for (uint32_t k = 0; k < nodes; k++)
        if (labels[k] == SAFE && meets_rule(n, rule, k, labels)) {
            labels[k] = FRESH;
            something_new = 1;
        }
    return something_new;
}

static void settle(uint8_t *labels, size_t nodes)
{
    for (size_t k = 0; k < nodes; k++)
        labels[k] = labels[k] == FRESH ? MARKED : labels[k];
}

static int has_safe_neighbour(uint32_t n, uint32_t k, const uint8_t *labels)
{
    for (uint32_t i = 0; i < n; i++)
        if (labels[k ^ 1u << i] == SAFE)
            return 1;
    return 0;
}

/* The half before the first exchange. A closed node is a faulty one; a draining
 * node counts as one until the exchanges are over. */
static void start(const uint8_t *faults, const uint8_t *draining,
                  const uint8_t *closed, uint8_t *labels, size_t nodes)
{
    for (size_t k = 0; k < nodes; k++) {
        unsigned out = faults[k / 8] | draining[k / 8] | closed[k / 8];
        labels[k] = out >> (k % 8) & 1 ? FAULTY : SAFE;
    }
}

/* Tells the draining nodes that are neither faulty nor closed from the others. */
static void put_draining(const uint8_t *faults, const uint8_t *draining,
                         const uint8_t *closed, size_t bytes, uint8_t *labels)
{
    for (size_t k = 0; k < bytes; k++)
        for (unsigned alone = draining[k] & ~(faults[k] | closed[k]); alone;
             alone &= alone - 1)
            labels[8 * k + (size_t)__builtin_ctz(alone)] = DRAINING;
}

static void finish(uint32_t n, const uint8_t *faults, const uint8_t *draining,
                   const uint8_t *closed, size_t bytes, uint8_t *labels)
{
    for (uint32_t k = 0; k < 1u << n; k++)
        if (labels[k] == MARKED && has_safe_neighbour(n, k, labels))
            labels[k] = ORDINARY;
    put_draining(faults, draining, closed, bytes, labels);
}

/* The answer where labelling refuses, or 0. */
static uint32_t label_refusal(uint32_t n, uint32_t rule, uint32_t job,
                              const uint8_t *faults, size_t faults_len,
                              const uint8_t *draining, size_t draining_len,
                              const uint8_t *closed, size_t closed_len,
                              size_t labels_len)
{
    size_t nodes;
    if (n < 1 || n > 12)
        return refused(1);
    if (rule < 2 || rule > 3)
        return refused(18);
    if (job > 1)
        return refused(19);
    nodes = (size_t)1 << n;
    if (faults_len != (nodes + 7) / 8 || draining_len != faults_len ||
        closed_len != faults_len || labels_len != 2 * nodes)
        return refused(2);
    if (n < 3 && (faults[0] | draining[0] | closed[0]) >> nodes)
        return refused(3);
    return 0;
}

uint32_t NAME(label)(uint32_t n, uint32_t rule, uint32_t job,
                     const uint8_t *faults, size_t faults_len,
                     const uint8_t *draining, size_t draining_len,
                     const uint8_t *closed, size_t closed_len,
                     uint8_t *labels, size_t labels_len)
{
    uint32_t exchanges = 1;
    uint32_t refusal = label_refusal(n, rule, job, faults, faults_len, draining,
                                     draining_len, closed, closed_len,
                                     labels_len);
    size_t nodes;
    if (refusal)
        return refusal;
    nodes = (size_t)1 << n;
    labels += job * nodes;
    start(faults, draining, closed, labels, nodes);
    while (sweep(n, rule, labels, nodes)) {
        settle(labels, nodes);
        exchanges++;
    }
    finish(n, faults, draining, closed, closed_len, labels);
    return exchanges;
}

/* ---- why a node has its label: labelling, which watches the node */

/* The lowest dimensions across which two are faulty, if there are two, or else
 * so many are faulty or marked; the fresh ones are of this round, and do not
 * count. */
static uint64_t cause(uint32_t n, uint32_t rule, uint32_t x,
                      const uint8_t *labels)
{
    uint64_t faulty = 0, bad = 0;
    unsigned count_faulty = 0, count_bad = 0;
    for (uint32_t i = 0; i < n && count_faulty < 2; i++) {
        uint8_t label = labels[x ^ 1u << i];
        if (label == FAULTY)
            faulty |= (uint64_t)i << (32 + 8 * count_faulty++);
        if ((label == FAULTY || label == MARKED) && count_bad < rule)
            bad |= (uint64_t)i << (32 + 8 * count_bad++);
    }
    return count_faulty == 2 ? faulty | (uint64_t)1 << 56
                             : bad | (uint64_t)2 << 56;
}

/* How many neighbours of a safe node are faulty, and how many are not safe. */
static uint64_t counts(uint32_t n, uint32_t x, const uint8_t *labels)
{
    uint64_t counts = 0;
    for (uint32_t i = 0; i < n; i++) {
        uint8_t label = labels[x ^ 1u << i];
        counts += ((uint64_t)(label >= FAULTY) << 32) +
                  ((uint64_t)(label != SAFE) << 40);
    }
    return counts;
}

uint64_t NAME(why_node)(uint32_t n, uint32_t rule, uint32_t job, uint32_t x,
                        const uint8_t *faults, size_t faults_len,
                        const uint8_t *draining, size_t draining_len,
                        const uint8_t *closed, size_t closed_len,
                        uint8_t *labels, size_t labels_len)
{
    uint64_t found = 0, round = 1;
    uint32_t refusal = label_refusal(n, rule, job, faults, faults_len, draining,
                                     draining_len, closed, closed_len,
                                     labels_len);
    size_t nodes;
    if (refusal)
        return refusal;
    nodes = (size_t)1 << n;
    if (x >> n)
        return refused(5);
    labels += job * nodes;
    start(faults, draining, closed, labels, nodes);
    for (; sweep(n, rule, labels, nodes); round++) {
        if (labels[x] == FRESH)
            found = cause(n, rule, x, labels) + round;
        settle(labels, nodes);
    }
    finish(n, faults, draining, closed, closed_len, labels);
    if (labels[x] == SAFE)
        found = counts(n, x, labels);
    return found + ((uint64_t)labels[x] << 16);
}
