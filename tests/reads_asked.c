/*
 * reads_asked.c: which labels a hop, a walk, either by networks, and the questions
 * that say why read, and that what is refused before a label is looked at reads
 * none. The other half holds anything.
 */
#include <stdio.h>

#include "../include/hcube.h"
#include "cases.h"
#include "noted.h"
#include "reads.h"
#include "watch.h"

#define HOPS 200u

static uint8_t row[HCUBE_ROW_BYTES], list[HCUBE_HOPS_BYTES_MAX];
static uint8_t faults[512], draining[512], closed[512];

/* The job's half has labels, of which one may be none. */
static void put_halves(int one_is_none)
{
    uint8_t *labels = watched_buffer(HCUBE_NODES(n));
    uint8_t *half = labels + HCUBE_HALF(n, job);
    random_bytes(labels, HCUBE_LABEL_BYTES(n));
    random_labels(n, HCUBE_DRAINING, half);
    if (one_is_none)
        half[random_below(HCUBE_NODES(n))] = HCUBE_DRAINING + 1;
}

static uint32_t any_node(void)
{
    return random_below(HCUBE_NODES(n));
}

/* A hop, why it is taken, and a hop by networks. */
typedef uint32_t decides(uint32_t n, uint32_t job, uint32_t c, uint32_t d,
                         const uint8_t *labels, size_t labels_len);

static void watch_hop(decides *question, uint32_t c, uint32_t d)
{
    uint8_t *labels = watched_buffer(HCUBE_NODES(n));
    watch_begin();
    question(n, job, c, d, labels, HCUBE_LABEL_BYTES(n));
    watch_end();
    expect_from_start(n, job);
}

/* From any network and direction of any board. */
static uint32_t net_hop(uint32_t n, uint32_t job, uint32_t c, uint32_t d,
                        const uint8_t *labels, size_t labels_len)
{
    uint32_t networks = 1 + random_below(HCUBE_NETWORKS_MAX);
    return hcube_hop_networks(n, networks, job, c, d, random_below(networks),
                              random_below(2), labels, labels_len);
}

/* A hop at c: its own label, then each neighbour's, and no more; by networks in
 * whichever order. Where one label of the half is none, reads of the half alone. */
static void check_decisions(decides *question, const char *what)
{
    unsigned cases = 0;
    put_halves(0);
    *wrong = 0;
    for (; cases < HOPS && !*wrong; cases++) {
        uint32_t c = any_node();
        watch_hop(question, c, any_node());
        if (question == net_hop) {
            expect_around(c, "a hop by networks");
        } else {
            expect_access(0, c, "a hop's own label");
            expect_neighbours(c, n, "a hop's neighbours");
        }
        expect_end();
    }
    for (; cases < 2 * HOPS && !*wrong; cases++) {
        put_halves(1);
        watch_hop(question, any_node(), any_node());
        expect_reads();
        expect_end();
    }
    result(what, cases);
}

void check_hops(void)
{
    check_decisions(hcube_hop, "hops");
}

/* Why a hop is taken is told by the labels that the hop reads. */
void check_why_hops(void)
{
    check_decisions(hcube_why_hop, "why hops");
}

void check_net_hops(void)
{
    check_decisions(net_hop, "hops by networks");
}

/* Why a node has its label: the job's half alone is read and written. One table
 * with many faulty nodes in large cubes, since each access takes long. */
void check_why_labels(void)
{
    unsigned cases = 0, tables = n <= 6 ? 8 : 1;
    uint8_t *labels = watched_buffer(HCUBE_NODES(n));
    size_t bytes = HCUBE_FAULT_BYTES(n);
    *wrong = 0;
    for (; cases < tables && !*wrong; cases++) {
        random_faults(n, 250 >> cases / 2, faults);
        random_draining(n, faults, draining);
        random_closed(n, faults, draining, closed);
        random_bytes(labels, HCUBE_LABEL_BYTES(n));
        watch_begin();
        hcube_why_node(n, 2 + (cases + n) % 2, job, any_node(), faults, bytes,
                       draining, bytes, closed, bytes, labels,
                       HCUBE_LABEL_BYTES(n));
        watch_end();
        expect_from_start(n, job);
        expect_half();
        expect_end();
        if (noted < HCUBE_NODES(n) / 8)
            snprintf(wrong, sizeof wrong, "a label said with %u accesses",
                     (unsigned)noted);
    }
    result("why labels", cases);
}

/* A walk, and one by networks. */
static void walk(uint32_t s, uint32_t d, const uint8_t *labels)
{
    hcube_walk(n, job, s, d, labels, HCUBE_LABEL_BYTES(n), row, sizeof row);
}

static void net_walk(uint32_t s, uint32_t d, const uint8_t *labels)
{
    hcube_walk_networks(n, 1 + random_below(HCUBE_NETWORKS_MAX), job, s, d, labels,
                        HCUBE_LABEL_BYTES(n), list, sizeof list);
}

/* Reads, all of them in the job's half. Fewer walks in large cubes, since each
 * reads all labels. */
static void watch_walks(void (*question)(uint32_t, uint32_t, const uint8_t *),
                        const char *what)
{
    unsigned cases = 0, walks = n <= 8 ? 40 : 8;
    uint8_t *labels = watched_buffer(HCUBE_NODES(n));
    *wrong = 0;
    for (; cases < walks && !*wrong; cases++) {
        uint32_t s = any_node(), d = any_node();
        put_halves(cases % 8 == 7);
        watch_begin();
        question(s, d, labels);
        watch_end();
        expect_from_start(n, job);
        expect_reads();
        expect_end();
        if (noted == 0)
            snprintf(wrong, sizeof wrong, "a walk that reads nothing");
    }
    result(what, cases);
}

void check_walks(void)
{
    watch_walks(walk, "walks");
}

void check_net_walks(void)
{
    watch_walks(net_walk, "walks by networks");
}

/* On what is no board, in a network that it lacks, into a list that is too short,
 * and what a hop and a walk refuse. */
static void refused_by_networks(const uint8_t *labels, size_t len)
{
    size_t room = HCUBE_HOPS_BYTES(n, 2);
    hcube_hop_networks(n, 0, job, 0, 1, 0, 0, labels, len);
    hcube_hop_networks(n, 6, job, 0, 1, 0, 0, labels, len);
    hcube_hop_networks(n, 2, job, 0, 1, 2, 0, labels, len);
    hcube_hop_networks(n, 2, job, 0, 1, 0, 2, labels, len);
    hcube_hop_networks(n, 2, job + 2, 0, 1, 0, 0, labels, len);
    hcube_hop_networks(n, 2, job, 0, 1, 0, 0, labels, len / 2);
    hcube_hop_networks(n, 2, job, 0, 1u << n, 0, 0, labels, len);
    hcube_hop_networks(n, 2, job, 1u << n, 0, 0, 0, labels, len);
    hcube_hop_networks(n + 12, 2, job, 0, 1, 0, 0, labels, len);
    hcube_walk_networks(n, 0, job, 0, 1, labels, len, list, room);
    hcube_walk_networks(n, 6, job, 0, 1, labels, len, list, sizeof list);
    hcube_walk_networks(n, 2, job + 2, 0, 1, labels, len, list, room);
    hcube_walk_networks(n, 2, job, 0, 1, labels, len / 2, list, room);
    hcube_walk_networks(n, 2, job, 0, 1, labels, len, list, room - 1);
    hcube_walk_networks(n, 2, job, 1u << n, 1, labels, len, list, room);
    hcube_walk_networks(n, 2, job, 0, 1u << n, labels, len, list, room);
    hcube_walk_networks(n + 12, 2, job, 0, 1, labels, len, list, room);
}

/* For a number that is no job, with another length, and for what is no node. */
void check_refused(void)
{
    static const uint8_t none[HCUBE_FAULT_BYTES(12)];
    size_t bytes = HCUBE_FAULT_BYTES(n), len = HCUBE_LABEL_BYTES(n);
    uint8_t *labels = watched_buffer(HCUBE_NODES(n));
    put_halves(0);
    watch_begin();
    hcube_label(n, 3, job + 2, none, bytes, none, bytes, none, bytes, labels, len);
    hcube_label(n, 3, job, none, bytes, none, bytes, none, bytes, labels, len / 2);
    hcube_hop(n, job + 2, 0, 1, labels, len);
    hcube_hop(n, job, 0, 1, labels, len / 2);
    hcube_hop(n, job, 0, 1u << n, labels, len);
    hcube_why_node(n, 3, job + 2, 0, none, bytes, none, bytes, none, bytes,
                   labels, len);
    hcube_why_node(n, 3, job, 0, none, bytes, none, bytes, none, bytes, labels,
                   len / 2);
    hcube_why_node(n, 3, job, 1u << n, none, bytes, none, bytes, none, bytes,
                   labels, len);
    hcube_why_hop(n, job + 2, 0, 1, labels, len);
    hcube_why_hop(n, job, 0, 1, labels, len / 2);
    hcube_why_hop(n, job, 0, 1u << n, labels, len);
    hcube_walk(n, job + 2, 0, 1, labels, len, row, sizeof row);
    hcube_walk(n, job, 0, 1, labels, len / 2, row, sizeof row);
    hcube_walk(n, job, 1u << n, 1, labels, len, row, sizeof row);
    refused_by_networks(labels, len);
    watch_end();
    expect_from_start(n, job);
    expect_end();
    result("what is refused", 14 + 17);
}
