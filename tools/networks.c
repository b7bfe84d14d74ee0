/*
 * networks.c: how many virtual networks the walks of hcube_walk_networks need: of each that
 * is delivered with five, one more than the highest network of its hops. A walk is from a
 * working node to another.
 *
 *   networks SEED N...   of every table of n = 1 to 4, of random ones of 5 to 12
 *
 * The random numbers are its own, and each n has its own row of them, so that a seed
 * gives the same numbers everywhere and for whichever N. It ends with status 1 where a
 * walk breaks what is proved (include/hcube.h, hcube_walk_networks).
 */
#include "networks.h"

#define WHOLE 4         /* up to this n every table is counted */
#define TABLES 250      /* so many random ones for each number of faults */
#define SOURCES 16      /* of a cube above SMALL so many sources for each table */
#define DESTINATIONS 64 /* and so many destinations for each of them */

struct counts {
    uint64_t tables, walks[KINDS];
};
static struct counts counts[HCUBE_DIMENSION_MAX + 1][2]; /* of no safe node, and of some */

static void count_table(void)
{
    struct counts *to = &counts[n][some_safe];
    int all = nodes <= SMALL;
    uint32_t sources = all ? working : SOURCES, destinations = all ? working : DESTINATIONS;
    uint32_t pair;
    to->tables++;
    for (uint32_t i = 0; i < sources; i++) {
        uint32_t s = order[all ? i : random_below(working)];
        for (uint32_t j = 0; j < destinations; j++) {
            uint32_t d = order[all ? j : random_below(working)];
            if (d != s)
                to->walks[walk(s, d, &pair)]++;
        }
    }
}

static void count_every_table(void)
{
    for (uint32_t table = 0; table < 1u << nodes; table++) {
        faults[0] = (uint8_t)table;
        faults[1] = (uint8_t)(table >> 8);
        label();
        count_table();
    }
}

/* As many tables each with n - 1, n, 2n, 3n and 5n faulty nodes and with a tenth, a fifth
 * and three tenths of all, where these are half of them at most. */
static void count_random_tables(void)
{
    static uint32_t all_nodes[HCUBE_NODES_MAX];
    uint32_t faulty[] = {n - 1, n, 2 * n, 3 * n, 5 * n, nodes / 10, nodes / 5, nodes * 3 / 10};
    for (uint32_t k = 0; k < nodes; k++)
        all_nodes[k] = k;
    for (unsigned k = 0; k < sizeof faulty / sizeof *faulty; k++)
        for (unsigned table = 0; faulty[k] <= nodes / 2 && table < TABLES; table++) {
            random_table(all_nodes, nodes, faulty[k]);
            count_table();
        }
}

static void print_counts(const char *title, int safe, int count, char **words)
{
    printf("**%s**, walks by the networks that they need:\n\n", title);
    printf("| n | tables | 1 | 2 | 3 | 4 | 5 | more than 5 | halted |\n");
    printf("|---|---|---|---|---|---|---|---|---|\n");
    for (int i = 0; i < count; i++) {
        const struct counts *of = &counts[atoi(words[i])][safe];
        printf("| %s | %" PRIu64 " |", words[i], of->tables);
        for (unsigned kind = 1; kind <= HCUBE_NETWORKS_MAX; kind++)
            printf(" %" PRIu64 " |", of->walks[kind]);
        printf(" %" PRIu64 " | %" PRIu64 " |\n", of->walks[MORE], of->walks[HALTED]);
    }
}

static void count_all(uint64_t seed, int count, char **words)
{
    for (int i = 0; i < count; i++) {
        set_dimension((uint32_t)atoi(words[i]), seed);
        memset(counts[n], 0, sizeof counts[n]);
        if (n <= WHOLE)
            count_every_table();
        else
            count_random_tables();
    }
    print_counts("Some node is safe", 1, count, words);
    printf("\n");
    print_counts("No node is safe", 0, count, words);
}

int main(int count, char **words)
{
    count_all(strtoull(words[1], NULL, 10), count - 2, words + 2);
    return written();
}
