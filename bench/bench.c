/*
 * bench.c: times of the archive as a ratio to the same algorithm in plain C, on
 * tables with and without draining and closed nodes, for either job; of notices; of
 * list text; of repairs; and of hop and walk by virtual networks.
 *
 *   bench REPETITIONS
 */
#include <stdio.h>
#include <stdlib.h>
#include <string.h>

#include "../include/hcube.h"
#include "../tests/cases.h"
#include "sides.h"
#include "times.h"
#include "worst.h"

static void set_dimension(uint32_t dimension)
{
    n = dimension;
    memset(faults, 0, sizeof faults);
    memset(draining, 0, sizeof draining);
    memset(closed, 0, sizeof closed);
}

static void add_node(uint8_t *table, uint32_t k)
{
    table[k / 8] |= (uint8_t)(1u << (k % 8));
}

/* Random nodes that are in none of the tables yet. */
static void add_nodes(uint8_t *table, unsigned count)
{
    while (count) {
        uint32_t k = random_node();
        if (in_table(faults, k) || in_table(draining, k) || in_table(closed, k))
            continue;
        add_node(table, k);
        count--;
    }
}

/* ---- rows */

static void set_worst(void)
{
    set_dimension(12);
    if (rule == HCUBE_RULE_CHIU_WU)
        memcpy(faults, worst_table, sizeof worst_table);
    else
        for (unsigned k = 0; k < COUNT(worst_by_2); k++)
            add_node(faults, worst_by_2[k]);
}

static void set_random(unsigned faulty, unsigned drained, unsigned shut)
{
    set_dimension(12);
    add_nodes(faults, faulty);
    add_nodes(draining, drained);
    add_nodes(closed, shut);
}

static void print_table(void)
{
    static const unsigned counts[] = {0, 12, 41, 410};
    char name[32];
    for (unsigned k = 0; k < COUNT(counts); k++) {
        set_random(counts[k], 0, 0);
        snprintf(name, sizeof name, "%u faults", counts[k]);
        print_row(name);
    }
    set_worst();
    print_row("worst");
}

/* Of the nodes that do not work as many are faulty as draining. */
static void print_draining(void)
{
    static const unsigned counts[] = {6, 20, 205};
    char name[32];
    for (unsigned k = 0; k < COUNT(counts); k++) {
        set_random(counts[k], counts[k], 0);
        snprintf(name, sizeof name, "%u and %u", counts[k], counts[k]);
        print_row(name);
    }
    set_worst();
    for (size_t k = 0; k < sizeof faults; k++) {
        draining[k] = faults[k] & 0x55;
        faults[k] &= 0xaa;
    }
    print_row("worst");
}

static void print_both_jobs(const char *name)
{
    for (job = 0; job <= 1; job++)
        print_row(name);
    job = 0;
}

/* As many are faulty as draining as closed, and either job closes them. */
static void print_closed(void)
{
    static const unsigned counts[] = {4, 14, 137};
    char name[32];
    for (unsigned k = 0; k < COUNT(counts); k++) {
        set_random(counts[k], counts[k], counts[k]);
        snprintf(name, sizeof name, "%u, %u, %u", counts[k], counts[k], counts[k]);
        print_both_jobs(name);
    }
    set_worst();
    for (size_t k = 0; k < sizeof faults; k++) {
        draining[k] = faults[k] & 0x49;
        closed[k] = faults[k] & 0x92;
        faults[k] &= 0x24;
    }
    print_both_jobs("worst");
}

static void print_scaling(void)
{
    for (uint32_t dimension = 4; dimension <= 12; dimension += 2) {
        set_dimension(dimension);
        add_nodes(faults, 1u << dimension >> 4);
        print_row("1/16 faulty");
    }
}

/* Last, so that the tables above are those of earlier runs. */
static void print_notices(void)
{
    static const unsigned counts[] = {0, 41, 410, HCUBE_NODES_MAX};
    char name[32];
    printf("\nnotices\n n table             bytes      write ratio         read "
           "ratio\n");
    for (unsigned k = 0; k < COUNT(counts); k++) {
        set_random(counts[k], 0, 0);
        snprintf(name, sizeof name, "%u faults", counts[k]);
        print_notice_row(name);
    }
}

/* Behind all others, for the same reason. */
static void print_lists(void)
{
    printf("\nlist text\n n table             bytes      write ratio         read "
           "ratio\n");
    set_dimension(12);
    print_list_row("no faults");
    for (uint32_t k = 0; k < HCUBE_NODES_MAX; k += 2)
        add_node(faults, k);
    print_list_row("every second");
    set_random(HCUBE_NODES_MAX, 0, 0);
    print_list_row("one run");
    set_random(HCUBE_NODES_MAX / 10, 0, 0);
    print_list_row("a tenth");
    set_dimension(12);
    for (uint32_t k = 0; k < HCUBE_NODES_MAX; k++)
        if (k % 3 != 2)
            add_node(faults, k);
    print_list_row("longest text");
}

/* The same. Of 81 dead nodes the table knows 41; each is named by all its neighbours
 * that live. */
static void print_repairs(void)
{
    uint8_t dead[MOST_TABLE];
    printf("\nrepairs\n n masks             added     repair ratio\n");
    set_random(41, 0, 0);
    memset(masks, 0, sizeof masks);
    print_repair_row("none");
    set_random(41, 40, 0);
    for (size_t k = 0; k < sizeof dead; k++)
        dead[k] = faults[k] | draining[k];
    masks_of(n, dead, masks);
    print_repair_row("of 40 that died");
    set_dimension(12);
    for (size_t k = 0; k < COUNT(masks); k++)
        masks[k] = HCUBE_NODES_MAX - 1;
    print_repair_row("all full");
    set_random(HCUBE_NODES_MAX / 2, 0, 0);
    print_repair_row("full, half faulty");
}

/* The same, of tables as above. */
static void print_networks(void)
{
    static const unsigned counts[] = {0, 41, 410};
    char name[32];
    printf("\nby five networks\n n job table                   hop ratio         walk "
           "ratio\n");
    job = 0;
    for (unsigned k = 0; k < COUNT(counts); k++) {
        set_random(counts[k], 0, 0);
        snprintf(name, sizeof name, "%u faults", counts[k]);
        print_networks_row(name);
    }
    set_worst();
    print_networks_row("worst");
    set_random(137, 137, 137);
    for (job = 0; job <= 1; job++)
        print_networks_row("137, 137, 137");
    job = 0;
    for (uint32_t dimension = 4; dimension <= 12; dimension += 2) {
        set_dimension(dimension);
        add_nodes(faults, 1u << dimension >> 4);
        print_networks_row("1/16 faulty");
    }
}

static void print_head(const char *name)
{
    static const char *const columns[] = {"label", "hop", "walk", "why label",
                                          "why hop"};
    printf("%s n rule job table         exchanges", name);
    for (unsigned k = 0; k < COUNT(columns); k++)
        printf("%s%11s ratio", k ? "  " : "", columns[k]);
    printf("\n");
}

int main(int count, char **words)
{
    int repetitions = count > 1 ? atoi(words[1]) : 51;
    set_repetitions(repetitions < 1 || repetitions > MOST_REPETITIONS
                        ? 51 : (unsigned)repetitions);
    random_seed(12);
    print_head("");
    for (rule = HCUBE_RULE_CHIU_WU; rule >= HCUBE_RULE_LEE_HAYES; rule--)
        print_table();
    rule = HCUBE_RULE_CHIU_WU;
    print_head("\nscaling\n");
    print_scaling();
    print_head("\nfaulty and draining nodes, every second pair for a draining one\n");
    print_draining();
    print_head("\nfaulty, draining and closed nodes, for either job\n");
    print_closed();
    print_head("\njob 1, nothing draining or closed\n");
    job = 1;
    print_table();
    print_notices();
    print_lists();
    print_repairs();
    print_networks();
    print_highest();
    return 0;
}
