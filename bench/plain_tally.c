/*
 * plain_tally.c: the tally program in plain C, to measure it against: every fault table of
 * n = 1 to 4 is labelled once, and each ordered pair of its working nodes is walked, as
 * plain.c and plain_hop.c do. PREFIX is the prefix of their functions' names.
 */
#include <inttypes.h>
#include <stdio.h>
#include <string.h>

#include "plain.h"

#define LAST_CUBE 4
#define MOST_NODES (1u << LAST_CUBE)
#define RULE 3

enum { ENDS = 4, HALTED = ENDS - 1 }; /* before it, by half the extra hops: delivered */

struct line {
    uint32_t tables, none_safe, walks[ENDS];
};

static void count_walks(uint32_t n, const uint8_t *labels, struct line *line)
{
    uint32_t nodes = 1u << n;
    uint8_t row[34];
    for (uint32_t s = 0; s < nodes; s++) {
        if (labels[s] == FAULTY)
            continue;
        for (uint32_t d = 0; d < nodes; d++) {
            uint32_t answer;
            if (labels[d] == FAULTY)
                continue;
            answer = NAME(walk)(n, 0, s, d, labels, 2 * nodes, row, sizeof row);
            if (answer >> 16)
                line->walks[HALTED]++;
            else
                line->walks[(answer - (uint32_t)__builtin_popcount(s ^ d)) / 2]++;
        }
    }
}

static void count_table(uint32_t n, uint32_t table, struct line *lines)
{
    static const uint8_t none[MOST_NODES / 8];
    uint8_t faults[MOST_NODES / 8] = {(uint8_t)table, (uint8_t)(table >> 8)};
    uint8_t labels[2 * MOST_NODES];
    size_t nodes = (size_t)1 << n, bytes = (nodes + 7) / 8;
    struct line *line = &lines[__builtin_popcount(table)];
    NAME(label)(n, RULE, 0, faults, bytes, none, bytes, none, bytes, labels, 2 * nodes);
    line->tables++;
    line->none_safe += !memchr(labels, SAFE, nodes);
    count_walks(n, labels, line);
}

static void print_cube(uint32_t n)
{
    struct line lines[MOST_NODES + 1] = {{0, 0, {0}}};
    for (uint32_t table = 0; table < 1u << (1u << n); table++)
        count_table(n, table, lines);
    printf("cube %" PRIu32 "\n", n);
    for (uint32_t faulty = 0; faulty <= 1u << n; faulty++) {
        const struct line *line = &lines[faulty];
        printf("%" PRIu32 " %" PRIu32 " %" PRIu32, faulty, line->tables, line->none_safe);
        for (unsigned end = 0; end < ENDS; end++)
            printf(" %" PRIu32, line->walks[end]);
        printf("\n");
    }
}

int main(void)
{
    for (uint32_t n = 1; n <= LAST_CUBE; n++)
        print_cube(n);
    return 0;
}
