/*
 * tally_recount.c: the tally of whole cubes (A14), counted once more with the labels and
 * walks of tests/reference.c: every fault table of n = 1 to 4 by rule 3, with nothing
 * draining or closed, and in each every ordered pair of working nodes, a node and itself
 * among them.
 *
 *   tally_recount    prints what crates/tally/stdout has
 *
 * It ends with status 1 where a walk has another end than those that are counted.
 */
#include <inttypes.h>
#include <stdio.h>
#include <stdlib.h>
#include <string.h>

#include "reference.h"

#define RULE 3
#define LAST_CUBE 4
#define MOST_FAULTS (1u << LAST_CUBE)
#define LAST_EXTRA 4

/* The tables with as many faults; by half its extra hops, the walks delivered. */
struct line {
    uint64_t tables, none_safe, delivered[LAST_EXTRA / 2 + 1], halted;
};

static const uint8_t empty[MOST_FAULT_BYTES];

static void count_walk(struct line *line, uint32_t n, uint32_t s, uint32_t d,
                       const uint8_t *labels)
{
    uint8_t row[ROW_BYTES];
    uint32_t answer = ref_walk(n, 0, s, d, labels, ref_label_bytes(n), row, sizeof row);
    uint32_t extra = answer - ref_distance(n, s, d);
    if (answer >> 16 == 1)
        line->halted++;
    else if (answer >> 16 == 0 && extra <= LAST_EXTRA && extra % 2 == 0)
        line->delivered[extra / 2]++;
    else {
        fprintf(stderr, "tally_recount: a walk of another end: n = %" PRIu32
                ", from %" PRIu32 " to %" PRIu32 "\n", n, s, d);
        exit(1);
    }
}

static void count_table(struct line *lines, uint32_t n, uint32_t table)
{
    uint8_t faults[] = {(uint8_t)table, (uint8_t)(table >> 8)};
    uint8_t labels[MOST_LABEL_BYTES];
    size_t bytes = ref_fault_bytes(n);
    uint32_t nodes = 1u << n, faulty = 0;
    struct line *line;
    for (uint32_t k = 0; k < nodes; k++)
        faulty += table >> k & 1;
    line = &lines[faulty];
    ref_label(n, RULE, 0, faults, bytes, empty, bytes, empty, bytes, labels, ref_label_bytes(n));
    line->tables++;
    line->none_safe += !memchr(labels, 0, nodes);
    for (uint32_t s = 0; s < nodes; s++)
        for (uint32_t d = 0; d < nodes; d++)
            if (!(table >> s & 1) && !(table >> d & 1))
                count_walk(line, n, s, d, labels);
}

static void print_cube(uint32_t n)
{
    struct line lines[MOST_FAULTS + 1] = {{0, 0, {0}, 0}};
    for (uint32_t table = 0; table >> (1u << n) == 0; table++)
        count_table(lines, n, table);
    printf("cube %" PRIu32 "\n", n);
    for (uint32_t faulty = 0; faulty <= 1u << n; faulty++) {
        const struct line *line = &lines[faulty];
        printf("%" PRIu32 " %" PRIu64 " %" PRIu64, faulty, line->tables, line->none_safe);
        for (unsigned half = 0; half <= LAST_EXTRA / 2; half++)
            printf(" %" PRIu64, line->delivered[half]);
        printf(" %" PRIu64 "\n", line->halted);
    }
}

int main(void)
{
    for (uint32_t n = 1; n <= LAST_CUBE; n++)
        print_cube(n);
    return 0;
}
