/*
 * worked_why.c: worked numbers of the questions that say why (RULES, Why,
 * Numbers on both sides), worked out by hand, each as a literal, asked of the
 * library.
 */
#include <string.h>

#include "check.h"
#include "groups.h"

/* The tables at hand, and the labels that the last question left. */
static uint8_t faults[2], draining[2], closed[2], labels[16];
static uint32_t n, rule;

static void put_table(uint8_t *table, unsigned bits)
{
    table[0] = (uint8_t)bits;
    table[1] = (uint8_t)(bits >> 8);
}

static void set(uint32_t dimension, uint32_t number, unsigned faulty,
                unsigned drained, unsigned shut)
{
    n = dimension;
    rule = number;
    put_table(faults, faulty);
    put_table(draining, drained);
    put_table(closed, shut);
    memset(labels, 0xee, sizeof labels);
}

/* From the top: cause, third, second, first; refusal, label, round. */
static void why(uint32_t x, uint64_t answer)
{
    struct label_question asked = fit_label(n, faults, labels);
    uint64_t got;
    asked.rule = rule;
    asked.draining = draining;
    asked.closed = closed;
    got = check_why_node(asked, x);
    keep_half(asked, labels);
    expect(got == answer, "n = %u by %u, node %u: %016llx", n, rule, x,
           (unsigned long long)got);
}

/* Kind, scan and dimension, by the labels of the last question. */
static void why_hop(uint32_t c, uint32_t d, uint32_t answer)
{
    uint32_t got = check_why_hop(fit_hop(n, c, d, labels));
    expect(got == answer, "hop at %u for %u: %08x", c, d, got);
}

/* K4: n = 4, faulty 2, 4, 8, 15. */
static void nodes_of_k4(void)
{
    set(4, 3, 0x8114, 0, 0);
    why(0, 0x0100020100010001);
    why(1, 0x0000010000000000);
    why(2, 0x0000000000030000);
    why(3, 0x0000010100000000);
    why(4, 0x0000000000030000);
    why(5, 0x0000010100000000);
    why(6, 0x0100020100010001);
    why(7, 0x0000020100000000);
    why(8, 0x0000000000030000);
    why(9, 0x0000010100000000);
    why(10, 0x0100030100010001);
    why(11, 0x0000020100000000);
    why(12, 0x0100030200010001);
    why(13, 0x0000020100000000);
    why(14, 0x0202010000020002);
    why(15, 0x0000000000030000);
    why(16, REFUSED(5));
}

/* 13 9 1 0; 6 7 5 1 0; 14 12 13; 0 1 3 7 6 14; and for 15, which is faulty. */
static void hops_of_k4(void)
{
    why_hop(13, 0, 0x10102);
    why_hop(9, 0, 0x10103);
    why_hop(1, 0, 0x10200);
    why_hop(6, 0, 0x10400);
    why_hop(7, 0, 0x10101);
    why_hop(5, 0, 0x10102);
    why_hop(14, 0, 0x10201);
    why_hop(12, 0, 0x10400);
    why_hop(0, 14, 0x10400);
    why_hop(1, 14, 0x10101);
    why_hop(3, 14, 0x10102);
    why_hop(7, 14, 0x10200);
    why_hop(6, 14, 0x10303);
    why_hop(14, 15, 0x10501);
    why_hop(10, 10, 0);
    why_hop(2, 0, REFUSED(6));
    why_hop(16, 0, REFUSED(5));
}

/* By the rule of Lee and Hayes a cause has two, and no node of K4 is safe. */
static void older_rule(void)
{
    set(4, 2, 0x8114, 0, 0);
    why(0, 0x0100020100020001);
    why(1, 0x0200010000020004);
    why(3, 0x0200020000020003);
    why(5, 0x0200010000020003);
    why(7, 0x0200030000020002);
    why(9, 0x0200010000020003);
    why(11, 0x0200020000020002);
    why(13, 0x0200010000020002);
    why(14, 0x0200010000020002);
    why(15, 0x0000000000030000);
    why_hop(13, 0, 0x10300);
    why_hop(12, 0, 0x20000);
}

/* K4 with node 15 draining, and then with 9 draining or closed besides. */
static void drained_and_closed(void)
{
    set(4, 3, 0x0114, 0x8000, 0);
    why(7, 0x0000020100000000);
    why(14, 0x0202010000020002);
    why(15, 0x0000000000040000);
    why_hop(7, 15, 0x10003);
    why_hop(14, 15, 0x10000);
    why_hop(3, 15, 0x10102);
    why_hop(15, 15, 0);
    why_hop(15, 7, REFUSED(6));
    set(4, 3, 0x0114, 0x8200, 0);
    why(1, 0x0000020100000000);
    why(9, 0x0000000000040000);
    why(11, 0x0100020100010001);
    why_hop(13, 9, 0x10002);
    set(4, 3, 0x0114, 0x8200, 0x0200);
    why(9, 0x0000000000030000);
    why(11, 0x0100020100010001);
    why(15, 0x0000000000040000);
    why_hop(13, 9, 0x10403);
}

/* q3, where no node is safe, in one table and then in three; and a 1-cube. */
static void small_cubes(void)
{
    for (unsigned each = 0; each < 2; each++) {
        set(3, 3, each ? 0x02 : 0x16, each ? 0x04 : 0, each ? 0x10 : 0);
        why(0, 0x0100010000020001);
        why(2, each ? 0x40000 : 0x30000);
        why(3, 0x0100010000020001);
        why(5, 0x0100020000020001);
        why(6, 0x0100020100020001);
        why(7, 0x0202010000020002);
        why_hop(0, 7, 0x20000);
        why_hop(7, 3, 0x10302);
    }
    set(1, 3, 0x01, 0, 0);
    why(2, REFUSED(5));
    expect(labels[0] == 0xee && labels[1] == 0xee, "labels of what is refused");
    why(0, 0x0000000000030000);
    expect(labels[0] == 3 && labels[1] == 0, "labels of a 1-cube");
    why(1, 0x0000010100000000);
    why_hop(1, 0, 0x20000);
}

void check_worked_why(void)
{
    begin_group("worked numbers of why");
    nodes_of_k4();
    hops_of_k4();
    older_rule();
    drained_and_closed();
    small_cubes();
    end_group();
}
