/*
 * worked_repair.c: worked repairs (RULES, Asking the neighbours), each with its nodes,
 * its masks, the nodes that are added and by whom, all as literal numbers.
 */
#include <string.h>

#include "cases.h"
#include "check.h"
#include "groups.h"

/* A node, and its mask; or a node that is added, and its number in the row. */
struct pair {
    uint32_t node;
    uint16_t number;
};

/* Masks and row end with a pair whose number is 0. Refused, nothing is added. */
static const struct repair {
    uint32_t n, faults; /* the faulty nodes are those whose bits are set */
    struct pair masks[5], added[8];
    unsigned refusal;
} rows[] = {
    /* the sample: 1 and 11 name 9, across dimension 3 and across 1 */
    {4, 0x8114, {{1, 8}, {11, 2}}, {{9, 2}}, 0},
    {4, 0x8114, {{11, 2}}, {{9, 12}}, 0},
    {4, 0x8114, {{1, 8}}, {{9, 2}}, 0},
    {4, 0x8114, {{0}}, {{0}}, 0},
    /* 8 is faulty, so that it names nobody; 13 and 11 are heard */
    {4, 0x8114, {{8, 1}}, {{0}}, 0},
    {4, 0x8114, {{8, 1}, {13, 4}, {11, 2}}, {{9, 12}}, 0},
    {4, 0x8114, {{8, 15}, {2, 15}, {4, 15}, {15, 15}}, {{0}}, 0},
    /* old faults that are named stay, without a number */
    {4, 0x8114, {{0, 15}}, {{1, 1}}, 0},
    {4, 0x8114, {{14, 1}, {7, 8}, {6, 4}}, {{0}}, 0},
    /* 9 is named, and still heard: it names 13 and 11, and 1 back */
    {4, 0x8114, {{1, 8}, {9, 14}}, {{1, 10}, {9, 2}, {11, 10}, {13, 10}}, 0},
    /* what those say who were named by one who was named */
    {4, 0x0001, {{1, 2}, {3, 4}, {7, 8}}, {{3, 2}, {7, 4}, {15, 8}}, 0},
    {4, 0x0003, {{1, 2}, {3, 4}, {7, 8}}, {{7, 4}, {15, 8}}, 0},
    /* a bit at n or above, of a working node and of a faulty one */
    {4, 0x8114, {{1, 16}}, {{0}}, 17},
    {4, 0x8114, {{8, 16}}, {{0}}, 17},
    {4, 0x8114, {{1, 8}, {15, 0x8000}}, {{0}}, 17},
    {4, 0x8114, {{1, 0x8008}}, {{0}}, 17},
    /* every node faulty: nobody is heard */
    {4, 0xffff, {{0, 15}, {9, 15}}, {{0}}, 0},
    {4, 0xffff, {{0, 31}}, {{0}}, 17},
    /* the smallest cubes */
    {1, 0, {{0, 1}}, {{1, 1}}, 0},
    {1, 0, {{1, 1}}, {{0, 2}}, 0},
    {1, 0, {{0, 1}, {1, 1}}, {{0, 2}, {1, 1}}, 0},
    {1, 1, {{0, 1}}, {{0}}, 0},
    {1, 1, {{1, 1}}, {{0}}, 0},
    {1, 2, {{0, 1}, {1, 1}}, {{0}}, 0},
    {1, 3, {{0, 1}, {1, 1}}, {{0}}, 0},
    {1, 0, {{0, 2}}, {{0}}, 17},
    {1, 1, {{0, 2}}, {{0}}, 17},
    {1, 4, {{0}}, {{0}}, 3},
    {1, 4, {{0, 2}}, {{0}}, 3},
    {2, 0x10, {{3, 4}}, {{0}}, 3},
    {2, 0, {{1, 2}, {2, 1}}, {{3, 2}}, 0},
    {2, 2, {{1, 2}, {2, 1}}, {{3, 3}}, 0},
    {2, 6, {{1, 2}, {2, 1}}, {{0}}, 0},
    {2, 0, {{3, 4}}, {{0}}, 17},
    {3, 0, {{7, 7}}, {{6, 8}, {5, 8}, {3, 8}}, 0},
    {3, 0x80, {{7, 7}}, {{0}}, 0},
    {3, 0x80, {{7, 8}}, {{0}}, 17},
    {5, 0x80000001, {{30, 1}, {16, 0x11}}, {{17, 17}}, 0},
};

static uint8_t faults[4], result[4], wanted[4];
static uint16_t masks[32], row[32], wanted_row[32];

/* Where it is refused, all is as it was. */
static void put_row(const struct repair *of)
{
    for (size_t k = 0; k < sizeof faults; k++)
        faults[k] = (uint8_t)(of->faults >> 8 * k);
    memset(masks, 0, sizeof masks);
    for (const struct pair *at = of->masks; at->number; at++)
        masks[at->node] = at->number;
    memset(result, 0xee, sizeof result);
    memset(row, 0xee, sizeof row);
    memcpy(wanted, result, sizeof wanted);
    memcpy(wanted_row, row, sizeof wanted_row);
    if (of->refusal)
        return;
    memcpy(wanted, faults, HCUBE_FAULT_BYTES(of->n));
    memset(wanted_row, 0, HCUBE_NODES(of->n) * sizeof *wanted_row);
    for (const struct pair *at = of->added; at->number; at++) {
        put_node(wanted, at->node);
        wanted_row[at->node] = at->number;
    }
}

/* The row of every node of n = 12 that all its neighbours name: the lowest neighbour
 * is across the highest bit of its number, and that of 0 is 1. */
static void all_name_all(void)
{
    static uint8_t none[HCUBE_FAULT_BYTES_MAX], all[HCUBE_FAULT_BYTES_MAX];
    static uint16_t full[HCUBE_NODES_MAX], by[HCUBE_NODES_MAX];
    for (uint32_t k = 0; k < HCUBE_NODES_MAX; k++)
        full[k] = 0x0fff;
    expect(check_repair(fit_repair(12, none, full, all, by)) == 0, "all name all");
    expect(by[0] == 2 && by[1] == 1 && by[2] == 1 && by[3] == 2, "nodes 0 to 3");
    expect(by[2048] == 1 && by[4095] == 2048 && by[4094] == 2047,
           "nodes 2048, 4095 and 4094");
    for (size_t k = 0; k < sizeof all; k++)
        expect(all[k] == 0xff, "byte %u: not all are added", (unsigned)k);
}

void check_worked_repairs(void)
{
    begin_group("worked repairs");
    for (size_t k = 0; k < COUNT(rows); k++) {
        uint32_t answer;
        put_row(&rows[k]);
        answer = check_repair(fit_repair(rows[k].n, faults, masks, result, row));
        expect(answer == REFUSED(rows[k].refusal), "row %u: %08x", (unsigned)k,
               answer);
        expect(!memcmp(result, wanted, sizeof wanted), "row %u: another table",
               (unsigned)k);
        for (uint32_t node = 0; node < COUNT(row); node++)
            expect(row[node] == wanted_row[node], "row %u, node %u: %u",
                   (unsigned)k, node, row[node]);
    }
    all_name_all();
    end_group();
}
