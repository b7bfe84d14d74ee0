/*
 * most_exchanges.c: looks for fault tables whose labelling takes many exchanges.
 *
 *   most_exchanges RULE N            tries every table, for N up to 5
 *   most_exchanges RULE N STEPS SEED searches, dimension after dimension
 *
 * Prints rule, dimension, exchanges and faulty nodes. The tables that it found
 * stand in tests/most.h. A node that is draining or closed counts as a faulty one
 * here, so that these tables add nothing.
 */
#include <stdint.h>
#include <stdio.h>
#include <stdlib.h>
#include <string.h>

#include "cases.h"

#define MOST_NODES 4096
#define MOST_TRIED 5

struct list {
    unsigned count;
    uint16_t node[MOST_NODES];
};

static unsigned rule, n, nodes;
static uint8_t faulty[MOST_NODES], best[MOST_NODES];

/* Whether a node is faulty or unsafe so far, and how many neighbours are. */
static uint8_t outside[MOST_NODES], near[MOST_NODES];

static void append(struct list *list, uint32_t k)
{
    list->node[list->count++] = (uint16_t)k;
}

/* One exchange: the nodes of `last` are told to their neighbours, and those that
 * now have `least` outside become unsafe. No other node has heard anything. */
static void exchange(const struct list *last, unsigned least, struct list *next)
{
    next->count = 0;
    for (unsigned k = 0; k < last->count; k++)
        for (unsigned i = 0; i < n; i++)
            near[last->node[k] ^ 1u << i]++;
    for (unsigned k = 0; k < last->count; k++)
        for (unsigned i = 0; i < n; i++) {
            uint32_t x = last->node[k] ^ 1u << i;
            if (!outside[x] && near[x] >= least) {
                outside[x] = 1;
                append(next, x);
            }
        }
}

/* Exchanges of the table at hand, the quiet one included. */
static unsigned count_exchanges(void)
{
    static struct list lists[2];
    unsigned exchanges = 1;
    memcpy(outside, faulty, nodes);
    memset(near, 0, nodes);
    lists[0].count = 0;
    for (uint32_t k = 0; k < nodes; k++)
        if (faulty[k])
            append(&lists[0], k);
    exchange(&lists[0], 2, &lists[1]);
    for (; lists[exchanges % 2].count; exchanges++)
        exchange(&lists[exchanges % 2], rule, &lists[(exchanges + 1) % 2]);
    return exchanges;
}

static void set_dimension(unsigned dimension)
{
    n = dimension;
    nodes = 1u << n;
}

static void print_best(unsigned exchanges)
{
    printf("%u %u %u", rule, n, exchanges);
    for (uint32_t k = 0; k < nodes; k++)
        if (best[k])
            printf(" %u", k);
    printf("\n");
    fflush(stdout);
}

/* Every table in which node 0 is faulty, and the empty one: any other is one of
 * these, seen from one of its faulty nodes. */
static void try_all(void)
{
    unsigned most = count_exchanges();
    for (uint64_t table = 1; table >> nodes == 0; table += 2) {
        unsigned exchanges;
        for (uint32_t k = 0; k < nodes; k++)
            faulty[k] = table >> k & 1;
        exchanges = count_exchanges();
        if (exchanges > most) {
            most = exchanges;
            memcpy(best, faulty, nodes);
        }
    }
    print_best(most);
}

/* Which nodes to change: a faulty node moves by one or two dimensions, or one or
 * two nodes become faulty or work again. */
static void choose(struct list *changed)
{
    uint32_t k = random_below(nodes);
    uint32_t moves = random_below(3), two = random_below(2);
    changed->count = 0;
    for (unsigned tries = 0; moves && !faulty[k] && tries < nodes; tries++)
        k = (k + 1) % nodes;
    append(changed, k);
    if (moves)
        append(changed, k ^ 1u << random_below(n) ^ two << random_below(n));
    else if (two)
        append(changed, random_below(nodes));
}

static void change(const struct list *changed)
{
    for (unsigned k = 0; k < changed->count; k++)
        faulty[changed->node[k]] ^= 1;
}

/* A loss stays with a chance of one in eight for each exchange lost. */
static int stays(unsigned loss)
{
    while (loss--)
        if (random_below(8))
            return 0;
    return 1;
}

static unsigned search(unsigned long steps)
{
    static struct list changed;
    unsigned exchanges = count_exchanges(), most = exchanges;
    memcpy(best, faulty, nodes);
    while (steps--) {
        unsigned now;
        choose(&changed);
        change(&changed);
        now = count_exchanges();
        if (now < exchanges && !stays(exchanges - now)) {
            change(&changed);
            continue;
        }
        exchanges = now;
        if (now > most) {
            most = now;
            memcpy(best, faulty, nodes);
        }
    }
    return most;
}

/* From dimension to dimension: the best table with an empty upper half beside it
 * has the exchanges that it had alone. */
static void search_up(unsigned last, unsigned long steps)
{
    for (unsigned dimension = 1; dimension <= last; dimension++) {
        set_dimension(dimension);
        memcpy(faulty, best, sizeof faulty);
        print_best(search(steps));
    }
}

int main(int count, char **words)
{
    unsigned last = count > 2 ? (unsigned)atoi(words[2]) : 0;
    rule = count > 1 ? (unsigned)atoi(words[1]) : 0;
    if (rule < 2 || rule > 3 || last < 1 || last > 12 ||
        (count == 3 && last > MOST_TRIED) || (count != 3 && count != 5)) {
        fprintf(stderr, "usage: most_exchanges RULE N [STEPS SEED]\n");
        return 2;
    }
    if (count == 3) {
        set_dimension(last);
        try_all();
        return 0;
    }
    random_seed(strtoull(words[4], NULL, 10));
    search_up(last, strtoul(words[3], NULL, 10));
    return 0;
}
