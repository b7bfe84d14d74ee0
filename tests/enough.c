/*
 * enough.c: how many nodes may be out of work and some node still be safe, so
 * that every frame is delivered, by either rule; and that one more may leave none
 * (RULES, When frames arrive). Out of work is a node in any of the three tables.
 */
#include "bounds.h"
#include "cabinet.h"
#include "cases.h"
#include "check.h"
#include "groups.h"

/* Fewer than n by rule 3; by rule 2, so many that their double is below n + 2. */
static uint32_t most_out(uint32_t n, uint32_t rule)
{
    return rule == HCUBE_RULE_CHIU_WU ? n - 1 : (n + 1) / 2;
}

static uint32_t count_out(uint32_t n)
{
    uint32_t count = 0;
    for (uint32_t k = 0; k < 1u << n; k++)
        count += (uint32_t)is_out(k);
    return count;
}

/* ---- enough */

/* Walks that were looked at, by the rule and by the source's label. */
static unsigned long walks[4][LAST_LABEL + 1], drained;

/* The node after so many hops from k, each across any dimension. */
static uint32_t away(uint32_t n, uint32_t k, unsigned hops)
{
    while (hops--)
        k ^= 1u << random_below(n);
    return k;
}

/* From a working node to one that works or is draining. */
static void arrives(uint32_t n, uint32_t rule, uint32_t s, uint32_t d)
{
    check_bounds_of(n, s, d, 1);
    walks[rule][labels[s]]++;
    drained += labels[d] == HCUBE_DRAINING;
}

/* Between two such nodes, near k as a rule. */
static void one_walk(uint32_t n, uint32_t rule, uint32_t k)
{
    unsigned far = random_below(4) ? 4 : n;
    uint32_t s, d;
    do
        s = away(n, k, random_below(far + 1));
    while (labels[s] >= HCUBE_FAULTY);
    do
        d = away(n, k, random_below(far + 1));
    while (labels[d] == HCUBE_FAULTY);
    arrives(n, rule, s, d);
}

/* These nodes out of work, each in one table or more; k is near them. */
static void these_out(uint32_t n, uint32_t rule, const uint32_t *nodes,
                      uint32_t count, uint32_t k, unsigned pairs)
{
    clear_cabinet();
    for (uint32_t i = 0; i < count; i++)
        do
            put_out(nodes[i]);
        while (random_below(4) == 0);
    expect(count_out(n) == count && count <= most_out(n, rule),
           "n = %u by %u: %u are out of work", n, rule, count_out(n));
    label_cabinet(n, rule);
    expect(has_safe_node(n), "n = %u by %u: no node is safe", n, rule);
    while (has_safe_node(n) && pairs--)
        one_walk(n, rule, k);
}

/* Every set of these nodes and later ones, up to so many as may be. */
static void all_sets(uint32_t n, uint32_t rule, uint32_t *nodes, uint32_t count)
{
    these_out(n, rule, nodes, count, count ? nodes[0] : 0, n < 5 ? 16 : 2);
    if (count == most_out(n, rule))
        return;
    nodes[count] = count ? nodes[count - 1] + 1 : 0;
    for (; nodes[count] < 1u << n; nodes[count]++)
        all_sets(n, rule, nodes, count + 1);
}

/* As many as may be, so many hops from k or nearer. */
static void near_set(uint32_t n, uint32_t rule, uint32_t k, unsigned hops)
{
    uint32_t nodes[11], count = 0;
    clear_cabinet();
    while (count < most_out(n, rule)) {
        uint32_t x = away(n, k, hops);
        if (is_out(x))
            continue;
        put_out(x);
        nodes[count++] = x;
    }
    these_out(n, rule, nodes, count, k, 12);
}

/* A strongly unsafe node is rare where fewer than n are out of work: here 32 is
 * one, or the node that stands for it if c stands for 0. */
static void one_strong(uint32_t c)
{
    uint32_t nodes[] = {0, 6, 24, 60, 65, 99, 160};
    for (unsigned i = 0; i < COUNT(nodes); i++)
        nodes[i] ^= c;
    these_out(8, 3, nodes, COUNT(nodes), 32 ^ c, 12);
    expect(labels[32 ^ c] == HCUBE_STRONG, "%u is not strongly unsafe", 32 ^ c);
    for (uint32_t d = 0; d < 256; d++)
        if (labels[d] != HCUBE_FAULTY)
            arrives(8, 3, 32 ^ c, d);
}

void check_enough(void)
{
    begin_group("few nodes out of work: one is safe, and walks arrive");
    for (uint32_t n = 1; n <= 5; n++)
        for (uint32_t rule = 2; rule <= 3; rule++) {
            uint32_t nodes[5];
            all_sets(n, rule, nodes, 0);
        }
    for (unsigned t = 0; t < 7 * 300; t++) {
        uint32_t n = 6 + t % 7, rule = 2 + t / 7 % 2;
        near_set(n, rule, random_below(1u << n), 2 + random_below(3));
    }
    for (unsigned t = 0; t < 4; t++)
        one_strong(random_below(256));
    for (uint32_t rule = 2; rule <= 3; rule++)
        for (unsigned label = 0; label < rule; label++)
            expect(walks[rule][label] >= 20, "by %u: %lu walks from label %u",
                   rule, walks[rule][label], label);
    expect(drained >= 20, "%lu walks to draining nodes", drained);
    end_group();
}

/* ---- one more */

/* The dimensions in any order. */
static void shuffle(uint32_t n, uint32_t *order)
{
    for (uint32_t i = 0; i < n; i++) {
        uint32_t j = random_below(i + 1);
        order[i] = order[j];
        order[j] = i;
    }
}

/* By rule 3 the n neighbours of c; by rule 2 c itself, and for each two dimensions,
 * or the last one alone, the node that is across them. */
static void one_too_many(uint32_t n, uint32_t rule, uint32_t c)
{
    uint32_t order[12], step = rule == HCUBE_RULE_CHIU_WU ? 1 : 2;
    shuffle(n, order);
    clear_cabinet();
    if (step == 2)
        put_out(c);
    for (uint32_t i = 0; i < n; i += step) {
        uint32_t x = c ^ 1u << order[i];
        put_out(step == 2 && i + 1 < n ? x ^ 1u << order[i + 1] : x);
    }
    expect(count_out(n) == most_out(n, rule) + 1, "n = %u by %u: %u are out of work",
           n, rule, count_out(n));
    label_cabinet(n, rule);
    expect(!has_safe_node(n), "n = %u by %u: a node is safe", n, rule);
}

void check_not_enough(void)
{
    begin_group("one more out of work: none may be safe, for every n");
    for (unsigned t = 0; t < 12 * 20; t++) {
        uint32_t n = 1 + t % 12, c = random_below(1u << n);
        one_too_many(n, 2, c);
        if (n > 1) /* a 1-cube with a node out of work has a safe one */
            one_too_many(n, 3, c);
    }
    end_group();
}
