/*
 * exchanges.c: how many exchanges labelling takes: the tables that take the most
 * there are or that are known, those that take one alone, and the ceilings (RULES,
 * How many exchanges there can be). These are counted here, in the tables and in
 * the labels, and are not asked of the reference.
 */
#include <string.h>

#include "cabinet.h"
#include "cases.h"
#include "check.h"
#include "groups.h"
#include "most.h"

/* ---- the most */

static uint32_t most_of_all_tables(uint32_t n, uint32_t rule)
{
    uint32_t found = 0;
    clear_cabinet();
    for (uint32_t table = 0; table < 1u << (1u << n); table++) {
        uint32_t exchanges;
        faults[0] = (uint8_t)table;
        faults[1] = (uint8_t)(table >> 8);
        exchanges = label_cabinet(n, rule);
        if (exchanges > found)
            found = exchanges;
    }
    return found;
}

/* As many exchanges, whether a node is faulty, draining or closed. */
static void takes_most(const struct most *most, int faulty)
{
    clear_cabinet();
    for (unsigned k = 0; k < most->count; k++)
        if (faulty)
            put_node(faults, most->nodes[k]);
        else
            put_out(most->nodes[k]);
    expect(label_cabinet(most->n, most->rule) == most->exchanges,
           "n = %u by %u, %s: not %u exchanges", most->n, most->rule,
           faulty ? "faulty" : "some draining or closed", most->exchanges);
}

void check_most_exchanges(void)
{
    begin_group("most exchanges, all fault tables of n = 4, both rules");
    for (size_t k = 0; k < COUNT(most_known); k++) {
        const struct most *most = &most_known[k];
        expect(most->n == k % 12 + 1 && most->rule == k / 12 + 2,
               "most.h: n = %u by %u is out of place", most->n, most->rule);
        for (unsigned turn = 0; turn <= 10; turn++)
            takes_most(most, turn == 0);
        if (most->n <= 4)
            expect(most_of_all_tables(most->n, most->rule) == most->exchanges,
                   "n = %u by %u: %u is not the most", most->n, most->rule,
                   most->exchanges);
    }
    end_group();
}

/* ---- one alone */

/* Each byte of the three tables; for n = 1 and 2 its bits for nodes alone. */
static void one_exchange(uint32_t n, uint32_t rule, unsigned faulty,
                         unsigned drained, unsigned shut)
{
    unsigned used = n < 3 ? (1u << (1u << n)) - 1 : 255;
    memset(faults, (int)(faulty & used), sizeof faults);
    memset(draining, (int)(drained & used), sizeof draining);
    memset(closed, (int)(shut & used), sizeof closed);
    expect(label_cabinet(n, rule) == 1,
           "n = %u by %u, faulty %02x, draining %02x, closed %02x: not 1 exchange",
           n, rule, faulty, drained, shut);
}

/* The quiet exchange alone: every node works, or none does. */
void check_one_exchange(void)
{
    begin_group("one exchange: all nodes work, and none does");
    for (unsigned k = 0; k < 24; k++) {
        uint32_t n = 1 + k % 12, rule = 2 + k / 12;
        one_exchange(n, rule, 0, 0, 0);
        one_exchange(n, rule, 255, 0, 0);
        one_exchange(n, rule, 0, 255, 0);
        one_exchange(n, rule, 0, 0, 255);
        one_exchange(n, rule, 255, 255, 0);
        one_exchange(n, rule, 0, 255, 255);
        one_exchange(n, rule, 255, 255, 255);
        one_exchange(n, rule, 0x5a, 0xa5, 0);
        one_exchange(n, rule, 0x5a, 0x21, 0x84);
        one_exchange(n, rule, 0xf1, 0x9e, 0x0c);
    }
    end_group();
}

/* ---- ceilings */

enum { BY_WORKING, BY_LATE, BY_NODES, CEILINGS };
static unsigned long reached[CEILINGS];

static uint32_t count_working(uint32_t n)
{
    uint32_t count = 0;
    for (uint32_t k = 0; k < 1u << n; k++)
        count += !is_out(k);
    return count;
}

/* Unsafe nodes with at most one neighbour that does not work. */
static uint32_t count_late(uint32_t n)
{
    uint32_t count = 0;
    for (uint32_t k = 0; k < 1u << n; k++) {
        unsigned out = 0;
        for (uint32_t i = 0; i < n; i++)
            out += is_out(k ^ 1u << i) != 0;
        count += (labels[k] == HCUBE_ORDINARY || labels[k] == HCUBE_STRONG) &&
                 out <= 1;
    }
    return count;
}

static void keeps_below(uint32_t n, uint32_t rule)
{
    uint32_t exchanges = label_cabinet(n, rule), ceiling[CEILINGS];
    ceiling[BY_WORKING] = count_working(n) + 1;
    ceiling[BY_LATE] = count_late(n) + 2;
    ceiling[BY_NODES] = HCUBE_EXCHANGES_MAX(n);
    for (unsigned k = 0; k < CEILINGS; k++) {
        expect(exchanges <= ceiling[k], "n = %u by %u: %u exchanges, ceiling %u",
               n, rule, exchanges, ceiling[k]);
        reached[k] += exchanges == ceiling[k];
    }
}

/* K4 with its four nodes in one of the tables: 12 nodes work, and of the unsafe
 * ones node 14 alone has at most one neighbour that does not. */
static void counts_of_k4(uint8_t *table)
{
    static const uint8_t k4[2] = {0x14, 0x81};
    clear_cabinet();
    memcpy(table, k4, sizeof k4);
    keeps_below(4, HCUBE_RULE_CHIU_WU);
    expect(count_working(4) == 12, "K4: %u nodes work", count_working(4));
    expect(count_late(4) == 1, "K4: %u late nodes", count_late(4));
}

/* All tables of n = 3 by either rule, random ones of every dimension, and those of
 * the most exchanges. Each ceiling is reached, so that it is no higher one. */
void check_ceilings(void)
{
    begin_group("ceilings of exchanges, each of them reached");
    counts_of_k4(faults);
    counts_of_k4(draining);
    counts_of_k4(closed);
    clear_cabinet();
    for (unsigned k = 0; k < 2 * 256; k++) {
        faults[0] = (uint8_t)(k / 2);
        keeps_below(3, 2 + k % 2);
    }
    for (unsigned k = 0; k < 2400; k++) {
        uint32_t n = 1 + k % 12;
        random_cabinet(n, random_density(n));
        keeps_below(n, 2 + k / 12 % 2);
    }
    for (size_t k = 0; k < COUNT(most_known); k++) {
        takes_most(&most_known[k], 0);
        keeps_below(most_known[k].n, most_known[k].rule);
    }
    for (unsigned k = 0; k < CEILINGS; k++)
        expect(reached[k] >= 20, "ceiling %u was reached %lu times", k,
               reached[k]);
    end_group();
}
