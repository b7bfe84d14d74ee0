/*
 * closed.c: nodes that one job closes (RULES, Which nodes work): all tables of
 * small cubes, and a worked cabinet with two jobs, its numbers as literals. What is
 * expected stands here once more and is not asked of the reference.
 */
#include <string.h>

#include "cabinet.h"
#include "cases.h"
#include "check.h"
#include "groups.h"

/* ---- all tables of small cubes */

/* Closed or faulty is 3, then draining 4, and the others work; and it is as if the
 * closed nodes were in the fault table. */
static void small_tables(uint32_t n, unsigned faulty, unsigned drained,
                         unsigned shut, unsigned turn)
{
    uint32_t rule = 2 + turn % 2, job = turn / 2, answer;
    uint8_t first[8];
    faults[0] = (uint8_t)faulty;
    draining[0] = (uint8_t)drained;
    closed[0] = (uint8_t)shut;
    answer = label_for(n, rule, job);
    memcpy(first, labels, sizeof first);
    for (uint32_t k = 0; k < 1u << n; k++) {
        int is_faulty = (faulty | shut) >> k & 1, drains = drained >> k & 1;
        expect(is_faulty  ? labels[k] == 3
               : drains   ? labels[k] == 4
                          : labels[k] <= 2,
               "n = %u, %02x %02x %02x, job %u: the label of %u is %u", n, faulty,
               drained, shut, job, k, labels[k]);
    }
    faults[0] = (uint8_t)(faulty | shut);
    closed[0] = 0;
    expect(label_for(n, rule, job) == answer &&
               !memcmp(labels, first, HCUBE_NODES(n)),
           "n = %u, %02x %02x %02x, job %u: not as if faulty", n, faulty, drained,
           shut, job);
}

/* All three tables of n = 1 and 2; all closed tables of n = 3 beside 40 pairs of
 * the others. */
static void all_small_tables(void)
{
    for (uint32_t n = 1; n <= 2; n++) {
        unsigned bits = 1u << n, tables = 1u << bits;
        for (unsigned k = 0; k < 4 * tables * tables * tables; k++)
            small_tables(n, k / 4 % tables, k / 4 / tables % tables,
                         k / 4 / tables / tables, k % 4);
    }
    for (unsigned pair = 0; pair < 40; pair++) {
        unsigned faulty = (unsigned)(random_bits() & random_bits() & 255);
        unsigned drained = (unsigned)(random_bits() & random_bits() & 255);
        for (unsigned k = 0; k < 4 * 256; k++)
            small_tables(3, faulty, drained, k / 4, k % 4);
    }
}

/* ---- one node x and its neighbours, in cubes of every dimension */

static void label_is(uint32_t n, uint32_t job, uint32_t x, uint8_t label,
                     const char *why)
{
    label_for(n, 2 + random_below(2), job);
    expect(labels[x] == label, "n = %u, job %u, %u with %s: label %u", n, job, x,
           why, labels[x]);
}

/* Across i alone works a neighbour, which is safe; then that one is out too. */
static void all_but_one_out(uint32_t n, uint32_t job, uint32_t x, uint32_t i)
{
    clear_cabinet();
    for (uint32_t j = 0; j < n; j++)
        if (j != i)
            put_out(x ^ 1u << j);
    label_is(n, job, x, HCUBE_ORDINARY, "one safe neighbour");
    expect(labels[x ^ 1u << i] == HCUBE_SAFE, "n = %u: %u's neighbour", n, x);
    put_out(x ^ 1u << i);
    label_is(n, job, x, HCUBE_STRONG, "no safe neighbour");
}

/* Across i a neighbour is out, and then across j another. */
static void two_out(uint32_t n, uint32_t job, uint32_t x, uint32_t i, uint32_t j)
{
    clear_cabinet();
    put_out(x ^ 1u << i);
    label_is(n, job, x, HCUBE_SAFE, "one that is out");
    put_out(x ^ 1u << j);
    label_is(n, job, x, n == 2 ? HCUBE_STRONG : HCUBE_ORDINARY, "two out");
}

static void one_node(uint32_t n, uint32_t job)
{
    for (uint32_t i = 0; i < n; i++) {
        if (n >= 3)
            all_but_one_out(n, job, random_below(1u << n), i);
        for (uint32_t j = 0; j < i; j++)
            two_out(n, job, random_below(1u << n), j, i);
    }
}

/* ---- K4 (RULES, Numbers on both sides) for two jobs */

static uint8_t both[32];

static void close_nodes(uint32_t job, unsigned drained, unsigned shut,
                        uint32_t exchanges, const char *digits)
{
    static const uint8_t figure[2] = {0x14, 0x81};
    uint8_t drain[2] = {(uint8_t)drained, (uint8_t)(drained >> 8)};
    uint8_t close[2] = {(uint8_t)shut, (uint8_t)(shut >> 8)};
    struct label_question asked = fit_label(4, figure, labels);
    asked.job = job;
    asked.draining = drain;
    asked.closed = close;
    asked.labels = both;
    expect(check_label(asked) == exchanges, "job %u: not %u exchanges", job,
           exchanges);
    for (unsigned k = 0; k < 16; k++)
        expect(both[16 * job + k] == digits[k] - '0', "job %u: label of %u is %u",
               job, k, both[16 * job + k]);
}

static void walk_is(uint32_t job, uint32_t s, uint32_t d, uint32_t answer,
                    const char *places)
{
    uint8_t row[ROW_BYTES] = {0};
    struct walk_question asked = fit_walk(4, s, d, labels, row);
    uint32_t got;
    asked.job = job;
    asked.labels = both;
    got = check_walk(asked);
    expect(got == answer, "job %u: walk %u to %u is %08x", job, s, d, got);
    for (unsigned k = 0; places[k]; k++)
        expect(row[2 * k] == (places[k] >= 'a' ? places[k] - 'a' + 10
                                               : places[k] - '0'),
               "job %u: walk %u to %u, place %u", job, s, d, k);
}

static void hop_is(uint32_t job, uint32_t c, uint32_t d, uint32_t answer)
{
    struct hop_question asked = fit_hop(4, c, d, labels);
    asked.job = job;
    asked.labels = both;
    expect(check_hop(asked) == answer, "job %u: hop %u to %u", job, c, d);
}

/* Job 0 closes 9, which was on the way from 13 to 0; job 1 closes nothing, and then
 * 1, without which no node is safe. */
static void worked_jobs(void)
{
    memset(both, 0xee, sizeof both);
    close_nodes(0, 0, 0x0200, 3, "1030301033212123");
    expect(both[16] == 0xee && both[31] == 0xee, "job 1 is not labelled yet");
    walk_is(0, 13, 0, 3, "d510");
    walk_is(1, 13, 0, REFUSED(4), "");
    hop_is(1, 13, 0, REFUSED(4));
    close_nodes(1, 0, 0, 3, "1030301030101023");
    walk_is(0, 13, 0, 3, "d510");
    walk_is(1, 13, 0, 3, "d910");
    walk_is(0, 14, 9, REFUSED(7), "");
    walk_is(1, 14, 9, 3, "ecd9");
    walk_is(0, 9, 0, REFUSED(6), "");
    walk_is(1, 9, 0, 2, "910");
    hop_is(0, 13, 0, 0x10003);
    hop_is(1, 13, 0, 0x10002);
    hop_is(0, 9, 9, REFUSED(6));
    hop_is(1, 9, 9, 0);
    close_nodes(1, 0, 0x0002, 3, "2332322232222223");
    walk_is(0, 13, 0, 3, "d510");
    walk_is(1, 13, 0, 0x10001, "dc");
}

/* 9 drains: job 0 closes it, for job 1 it takes what is addressed to it. A faulty
 * node that is closed too stays as it is. */
static void worked_draining(void)
{
    close_nodes(0, 0x0200, 0x0200, 3, "1030301033212123");
    close_nodes(1, 0x0200, 0x8000, 3, "1030301034212123");
    walk_is(0, 13, 9, REFUSED(7), "");
    walk_is(1, 13, 9, 1, "d9");
    hop_is(0, 9, 9, REFUSED(6));
    hop_is(1, 9, 9, 0);
    hop_is(0, 13, 9, 0x10003);
    hop_is(1, 13, 9, 0x10002);
}

void check_closed(void)
{
    begin_group("closed nodes, all tables of n = 1 and 2, all closed of n = 3");
    all_small_tables();
    end_group();
}

void check_neighbours_out(void)
{
    begin_group("a node's neighbours out, across each two dimensions");
    for (uint32_t n = 1; n <= 12; n++) {
        one_node(n, 0);
        one_node(n, 1);
    }
    end_group();
}

void check_worked_jobs(void)
{
    begin_group("worked numbers of two jobs");
    worked_jobs();
    worked_draining();
    end_group();
}
