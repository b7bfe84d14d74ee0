/*
 * sides.c: label, hop, walk and the questions that say why, as the archive and
 * the two C builds answer them. The notice is in notices.c, list text in lists.c,
 * repairing in repairs.c, hop and walk by networks in networks.c.
 */
#include "sides.h"

#include <stdio.h>
#include <stdlib.h>
#include <string.h>

#include "../include/hcube.h"
#include "../tests/cases.h"
#include "plain.h"
#include "times.h"

#define PAIRS 512u
#define WHYS 8u /* nodes whose label is asked about; one of them is measured */

uint32_t n, rule, job;
uint8_t faults[MOST_TABLE], draining[MOST_TABLE], closed[MOST_TABLE];
static size_t fault_bytes, label_bytes;
static uint8_t labels[HCUBE_LABEL_BYTES(12)], scratch[HCUBE_LABEL_BYTES(12)];
static uint8_t row[HCUBE_ROW_BYTES];
static uint32_t from[PAIRS], to[PAIRS], asked_about;

/* ---- the questions of the three sides */

#define LABEL(prefix)                                                          \
    prefix##label(n, rule, job, faults, fault_bytes, draining, fault_bytes,    \
                  closed, fault_bytes, scratch, label_bytes)
#define HOP(prefix, k)                                                         \
    prefix##hop(n, job, from[k], to[k], labels, label_bytes)
#define WALK(prefix, k)                                                        \
    prefix##walk(n, job, from[k], to[k], labels, label_bytes, row, sizeof row)
#define WHY_NODE(prefix)                                                       \
    prefix##why_node(n, rule, job, asked_about, faults, fault_bytes, draining, \
                     fault_bytes, closed, fault_bytes, scratch, label_bytes)
#define WHY_HOP(prefix, k)                                                     \
    prefix##why_hop(n, job, from[k], to[k], labels, label_bytes)

static uint32_t label_once(int side)
{
    switch (side) {
    case ARCHIVE: return LABEL(hcube_);
    case GCC: return LABEL(gcc_);
    default: return LABEL(clang_);
    }
}

static uint32_t hop_all(int side)
{
    uint32_t sum = 0;
    for (unsigned k = 0; k < PAIRS; k++)
        sum = sum * 31 + (side == ARCHIVE ? HOP(hcube_, k)
                          : side == GCC   ? HOP(gcc_, k)
                                          : HOP(clang_, k));
    return sum;
}

static uint32_t walk_all(int side)
{
    uint32_t sum = 0;
    for (unsigned k = 0; k < PAIRS; k++)
        sum = sum * 31 + (side == ARCHIVE ? WALK(hcube_, k)
                          : side == GCC   ? WALK(gcc_, k)
                                          : WALK(clang_, k));
    return sum;
}

static uint32_t why_once(int side)
{
    uint64_t answer = side == ARCHIVE ? WHY_NODE(hcube_)
                      : side == GCC   ? WHY_NODE(gcc_)
                                      : WHY_NODE(clang_);
    return (uint32_t)answer * 31 + (uint32_t)(answer >> 32);
}

static uint32_t why_hop_all(int side)
{
    uint32_t sum = 0;
    for (unsigned k = 0; k < PAIRS; k++)
        sum = sum * 31 + (side == ARCHIVE ? WHY_HOP(hcube_, k)
                          : side == GCC   ? WHY_HOP(gcc_, k)
                                          : WHY_HOP(clang_, k));
    return sum;
}

/* ---- the three sides answer alike, or the times say nothing */

void expect(int alike, const char *name)
{
    if (alike)
        return;
    printf("%s: the archive and plain C answer differently\n", name);
    exit(1);
}

void expect_alike(asked *question, const char *name)
{
    uint32_t answer = question(ARCHIVE);
    expect(answer == question(GCC) && answer == question(CLANG), name);
}

/* Byte for byte what the archive's labelling leaves, the other job's half among
 * it. */
static void expect_labels(asked *question, const char *name)
{
    for (int side = ARCHIVE; side < SIDES; side++) {
        memset(scratch, UNTOUCHED, label_bytes);
        question(side);
        if (side == ARCHIVE && question == label_once)
            memcpy(labels, scratch, label_bytes);
        expect(memcmp(labels, scratch, label_bytes) == 0, name);
    }
}

/* ---- pairs of nodes */

uint32_t random_node(void)
{
    return random_below((uint32_t)HCUBE_NODES(n));
}

static uint32_t working_node(const uint8_t *half)
{
    uint32_t k;
    do
        k = random_node();
    while (half[k] >= HCUBE_FAULTY);
    return k;
}

/* If there are draining nodes, every second pair is for one of them. */
static uint32_t destination(const uint8_t *half, unsigned pair)
{
    uint32_t k;
    if (pair % 2 == 0 || !memchr(half, HCUBE_DRAINING, HCUBE_NODES(n)))
        return working_node(half);
    do
        k = random_node();
    while (half[k] != HCUBE_DRAINING);
    return k;
}

/* ---- a row */

static void prepare(void)
{
    const uint8_t *half = labels + HCUBE_HALF(n, job);
    fault_bytes = HCUBE_FAULT_BYTES(n);
    label_bytes = HCUBE_LABEL_BYTES(n);
    expect_alike(label_once, "label");
    expect_labels(label_once, "label");
    for (unsigned k = 0; k < PAIRS; k++) {
        from[k] = working_node(half);
        to[k] = destination(half, k);
    }
    expect_alike(hop_all, "hop");
    expect_alike(walk_all, "walk");
    expect_alike(why_hop_all, "why hop");
    for (unsigned k = WHYS; k-- > 0;) {
        asked_about = from[k];
        expect_alike(why_once, "why label");
    }
    expect_labels(why_once, "why label");
}

void print_row(const char *name)
{
    prepare();
    printf("%2u %4u %3u %-16s %6u", n, rule, job, name, label_once(ARCHIVE));
    measure(label_once, 1);
    measure(hop_all, PAIRS);
    measure(walk_all, PAIRS);
    measure(why_once, 1);
    measure(why_hop_all, PAIRS);
    printf("\n");
    fflush(stdout);
}
