/*
 * delivery.c: what becomes of frames where random nodes are faulty: how often no node
 * is safe; of the pairs of working nodes that a path of working nodes joins, how many
 * are delivered, and how many by a shortest such path. Labels and walks are the
 * library's, by the rule of Chiu and Wu; the paths are found by breadth-first search.
 *
 *   delivery SEED N...    prints the tables of docs/HOW_IT_WORKS.md, for these N, 4 to 12
 *
 * The random numbers are its own, and each cell of the tables has its own row of them,
 * so that a seed gives the same numbers everywhere and for whichever N. It ends with
 * status 1 where a table breaks what is proved (docs/RULES.md, When frames arrive).
 */
#include <inttypes.h>
#include <stdio.h>
#include <stdlib.h>
#include <string.h>

#include "hcube.h"
#include "random.h"

#define FAR 0xffff      /* as a number of hops: no path leads there */
#define SMALL 64        /* of a cube of so many nodes, all pairs are counted */
#define SOURCES 16      /* of a larger one so many sources for each table */
#define DESTINATIONS 64 /* and so many destinations for each of them */

/* ---- one fault table */

static uint32_t n, nodes, working;      /* the cube; how many of its nodes work */
static uint32_t order[HCUBE_NODES_MAX]; /* all its nodes, those that work first */
static uint8_t faults[HCUBE_FAULT_BYTES_MAX], empty[HCUBE_FAULT_BYTES_MAX];
static uint8_t labels[HCUBE_LABEL_BYTES_MAX];
static int some_safe;

/* Says what should not be, for two nodes or, where they are one, for the table. */
static void broken(const char *what, uint32_t s, uint32_t d)
{
    fprintf(stderr, "delivery: %s: n = %" PRIu32, what, n);
    if (s != d)
        fprintf(stderr, ", from %" PRIu32 " to %" PRIu32, s, d);
    fprintf(stderr, ", faulty");
    for (uint32_t i = working; i < nodes; i++)
        fprintf(stderr, " %" PRIu32, order[i]);
    fprintf(stderr, "\n");
    exit(1);
}

/* Makes so many random nodes faulty, and labels the cube. */
static void random_table(uint32_t count)
{
    size_t bytes = HCUBE_FAULT_BYTES(n);
    uint32_t answer;
    memset(faults, 0, sizeof faults);
    for (working = nodes; working > nodes - count;) {
        uint32_t at = random_below(working--), k = order[at];
        order[at] = order[working];
        order[working] = k;
        faults[k / 8] |= (uint8_t)(1 << k % 8);
    }
    answer = hcube_label(n, HCUBE_RULE_CHIU_WU, 0, faults, bytes, empty, bytes, empty, bytes, labels, HCUBE_LABEL_BYTES(n));
    if (HCUBE_REFUSAL(answer) != HCUBE_ACCEPTED)
        broken("labelling is refused", 0, 0);
    some_safe = memchr(labels, HCUBE_SAFE, nodes) != NULL;
    if (!some_safe && count < n)
        broken("fewer than n are faulty, and no node is safe", 0, 0);
}

/* How many hops each node is from s over working nodes. */
static void search(uint32_t s, uint32_t *hops)
{
    static uint32_t queue[HCUBE_NODES_MAX];
    uint32_t first = 0, last = 0;
    for (uint32_t k = 0; k < nodes; k++)
        hops[k] = FAR;
    hops[s] = 0;
    queue[last++] = s;
    while (first < last) {
        uint32_t k = queue[first++];
        for (uint32_t i = 0; i < n; i++) {
            uint32_t next = k ^ 1u << i;
            if (hops[next] == FAR && !(faults[next / 8] >> next % 8 & 1)) {
                hops[next] = hops[k] + 1;
                queue[last++] = next;
            }
        }
    }
}

/* ---- one cell: many tables with as many faults */

struct cell {
    uint64_t tables, none_safe; /* none_safe: those without a safe node */
    uint64_t pairs, delivered, shortest;
};

/* Two working nodes, so many hops apart. */
static void count_pair(struct cell *cell, uint32_t s, uint32_t d, uint32_t hops)
{
    uint8_t row[HCUBE_ROW_BYTES];
    uint32_t answer = hcube_walk(n, 0, s, d, labels, HCUBE_LABEL_BYTES(n), row, sizeof row);
    int delivered = HCUBE_KIND(answer) == HCUBE_WALK_DELIVERED;
    if (HCUBE_REFUSAL(answer) != HCUBE_ACCEPTED)
        broken("a walk is refused", s, d);
    if (some_safe && !delivered)
        broken("some node is safe, and a frame is lost", s, d);
    if (delivered && HCUBE_VALUE(answer) < hops)
        broken("a walk is shorter than any path", s, d);
    if (hops == FAR)
        return;
    cell->pairs++;
    cell->delivered += delivered;
    cell->shortest += delivered && HCUBE_VALUE(answer) == hops;
}

static void count_pairs(struct cell *cell)
{
    static uint32_t hops[HCUBE_NODES_MAX];
    int all = nodes <= SMALL;
    uint32_t sources = all ? working : SOURCES, destinations = all ? working : DESTINATIONS;
    for (uint32_t i = 0; i < sources; i++) {
        uint32_t s = order[all ? i : random_below(working)];
        search(s, hops);
        for (uint32_t j = 0; j < destinations; j++) {
            uint32_t d = order[all ? j : random_below(working)];
            if (d != s)
                count_pair(cell, s, d, hops[d]);
        }
    }
}

static struct cell count_cell(uint64_t seed, uint32_t count, uint32_t tables)
{
    struct cell cell = {tables, 0, 0, 0, 0};
    state = (seed << 32) + ((uint64_t)n << 16) + count;
    for (uint32_t k = 0; k < nodes; k++)
        order[k] = k;
    while (tables--) {
        random_table(count);
        count_pairs(&cell);
        cell.none_safe += !some_safe;
    }
    return cell;
}

/* ---- the tables */

#define COLUMNS 8
static const char *const heads = "n − 1 | n | 2n | 3n | 5n | 10 % | 20 % | 30 %";
static const uint32_t tables_of[HCUBE_DIMENSION_MAX + 1] = {0, 0, 0, 0, 1000, 1000, 1000, 1000, 1000, 500, 500, 200, 200};

/* How many faults a column stands for; 0 where these are more than half of the nodes,
 * or not more than those of a column before. */
static uint32_t faults_of(unsigned column)
{
    uint32_t counts[COLUMNS] = {n - 1, n, 2 * n, 3 * n, 5 * n, nodes / 10, nodes / 5, nodes * 3 / 10};
    for (unsigned before = 0; before < column; before++)
        if (counts[before] <= nodes / 2 && counts[before] >= counts[column])
            return 0;
    return counts[column] <= nodes / 2 ? counts[column] : 0;
}

/* A share in percent, to one place or two. Only what is none or all is printed as 0 or 100. */
static void print_share(uint64_t part, uint64_t whole, int places)
{
    uint64_t one = places == 1 ? 10 : 100, all = 100 * one;
    uint64_t rounded = whole ? (2 * all * part + whole) / (2 * whole) : 0;
    if (!whole)
        printf(" – |");
    else if (part == 0 || part == whole)
        printf(" %d |", part ? 100 : 0);
    else if (rounded == 0)
        printf(" < 0.%0*d |", places, 1);
    else if (rounded == all)
        printf(" > 99.%d |", places == 1 ? 9 : 99);
    else
        printf(" %" PRIu64 ".%0*" PRIu64 " |", rounded / one, places, rounded % one);
}

enum { NONE_SAFE, DELIVERED, SHORTEST, KINDS };
static const char *const titles[KINDS] = {
    "**No node is safe**, in percent of the tables:",
    "**Delivered**, in percent of the connected pairs:",
    "**Delivered by a shortest path**, in percent of the connected pairs:",
};

static void print_cell(int kind, const struct cell *cell)
{
    if (kind == NONE_SAFE)
        print_share(cell->none_safe, cell->tables, 1);
    else
        print_share(kind == DELIVERED ? cell->delivered : cell->shortest, cell->pairs, 2);
}

int main(int argc, char **argv)
{
    static struct cell cells[HCUBE_DIMENSION_MAX + 1][COLUMNS];
    for (int i = 2; i < argc; i++) {
        n = (uint32_t)atoi(argv[i]);
        nodes = 1u << n;
        for (unsigned column = 0; column < COLUMNS; column++)
            if (faults_of(column))
                cells[n][column] = count_cell(strtoull(argv[1], NULL, 10), faults_of(column), tables_of[n]);
    }
    for (int kind = 0; kind < KINDS; kind++) {
        printf("%s%s\n\n| n | tables | %s |\n|---|---|---|---|---|---|---|---|---|---|\n", kind ? "\n" : "", titles[kind], heads);
        for (int i = 2; i < argc; i++) {
            n = (uint32_t)atoi(argv[i]);
            printf("| %" PRIu32 " | %" PRIu32 " |", n, tables_of[n]);
            for (unsigned column = 0; column < COLUMNS; column++)
                print_cell(kind, &cells[n][column]);
            printf("\n");
        }
    }
    if (fflush(stdout) == 0 && !ferror(stdout))
        return 0;
    perror("delivery: the tables could not be written");
    return 2;
}
