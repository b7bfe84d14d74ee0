/*
 * why_named.c: answers of nodes whose neighbours are put out of work one by one,
 * across each dimension, each two and each three of every cube (RULES, Why a
 * node has its label). What is due is said here, not by the reference.
 */
#include "cabinet.h"
#include "cases.h"
#include "check.h"
#include "groups.h"

/* Often the first node or the last. */
static uint32_t any_node(uint32_t n)
{
    uint32_t last = (1u << n) - 1, nodes[] = {0, last, random_below(1u << n)};
    return nodes[random_below(3)];
}

/* The node that is i and j away from x. */
static uint32_t away(uint32_t x, uint32_t i, uint32_t j)
{
    return x ^ 1u << i ^ 1u << j;
}

static uint32_t job; /* for which all is asked */

/* An unsafe node is strongly unsafe where no neighbour's label is that of a safe
 * one. */
static uint8_t unsafe_label(uint32_t n, uint32_t x)
{
    for (uint32_t i = 0; i < n; i++)
        if (labels[x ^ 1u << i] == HCUBE_SAFE)
            return HCUBE_ORDINARY;
    return HCUBE_STRONG;
}

/* By the tables at hand: all but the label, which is safe without a cause. */
static void is_due(uint32_t n, uint32_t rule, uint32_t x, uint64_t due)
{
    struct label_question asked = fit_label(n, faults, labels);
    uint64_t answer;
    uint8_t label = HCUBE_SAFE;
    asked.rule = rule;
    asked.job = job;
    asked.draining = draining;
    asked.closed = closed;
    answer = ask_why_node(asked, x);
    keep_half(asked, labels);
    if (HCUBE_WHY_CAUSE(due) != HCUBE_CAUSE_NONE)
        label = unsafe_label(n, x);
    due += (uint64_t)label << 16;
    expect(answer == due && labels[x] == label,
           "n = %u by %u, job %u, node %u: %016llx, not %016llx, label %u", n,
           rule, job, x, (unsigned long long)answer, (unsigned long long)due,
           labels[x]);
    saw_why_node(asked, due);
}

/* Two that do not work mark it in round 1, and here the others in round 2. */
static void cause_is(uint32_t n, uint32_t rule, uint32_t x, unsigned cause,
                     uint32_t i, uint32_t j, uint32_t k)
{
    unsigned round = cause == HCUBE_CAUSE_FAULTY ? 1 : 2;
    is_due(n, rule, x,
           ((uint64_t)cause << 56) + ((uint64_t)k << 48) +
               ((uint64_t)j << 40) + ((uint64_t)i << 32) + round);
}

/* It is safe, beside so many that do not work and so many that are not safe. */
static void counts_are(uint32_t n, uint32_t rule, uint32_t x, unsigned faulty,
                       unsigned not_safe)
{
    is_due(n, rule, x, ((uint64_t)faulty << 32) + ((uint64_t)not_safe << 40));
}

/* ---- unsafe nodes */

/* Two that do not work, and any above them. */
static void two_out(uint32_t n, uint32_t x, uint32_t i, uint32_t j)
{
    clear_cabinet();
    put_out(x ^ 1u << i);
    put_out(x ^ 1u << j);
    for (uint32_t k = j + 1; k < n; k++)
        if (random_below(4) == 0)
            put_out(x ^ 1u << k);
    cause_is(n, 2 + random_below(2), x, HCUBE_CAUSE_FAULTY, i, j, 0);
}

/* Across i alone works a neighbour, which is safe; then that one is out too. */
static void all_but_one_out(uint32_t n, uint32_t rule, uint32_t x, uint32_t i)
{
    clear_cabinet();
    for (uint32_t j = 0; j < n; j++)
        if (j != i)
            put_out(x ^ 1u << j);
    cause_is(n, rule, x, HCUBE_CAUSE_FAULTY, i == 0, i < 2 ? 2 : 1, 0);
    expect(labels[x] == HCUBE_ORDINARY, "n = %u: %u, safe across %u", n, x, i);
    put_out(x ^ 1u << i);
    cause_is(n, rule, x, HCUBE_CAUSE_FAULTY, 0, 1, 0);
}

/* Two that are marked in round 1, or one and one that does not work. Each that
 * is marked has two out of work beside it, and no other neighbour of x has. */
static void two_marked(uint32_t n, uint32_t x, uint32_t i, uint32_t j)
{
    uint32_t a = (i + 1) % n, b;
    while (a == i || a == j)
        a = (a + 1) % n;
    for (b = (a + 1) % n; b == i || b == j;)
        b = (b + 1) % n;
    clear_cabinet();
    put_out(away(x, i, j));
    put_out(away(x, j, a));
    if (b != a && random_below(2))
        put_out(away(x, i, b));
    else
        put_out(x ^ 1u << i);
    cause_is(n, 2, x, HCUBE_CAUSE_MARKED, i, j, 0);
}

/* The same for three, of which the first may not work. */
static void three_marked(uint32_t n, uint32_t x, uint32_t i, uint32_t j,
                         uint32_t k)
{
    clear_cabinet();
    put_out(away(x, i, j));
    put_out(away(x, i, k));
    put_out(away(x, j, k));
    if (random_below(2))
        put_out(x ^ 1u << i);
    cause_is(n, 3, x, HCUBE_CAUSE_MARKED, i, j, k);
}

/* ---- safe nodes */

/* One across i does not work. */
static void one_out(uint32_t n, uint32_t rule, uint32_t x, uint32_t i)
{
    clear_cabinet();
    put_out(x ^ 1u << i);
    counts_are(n, rule, x, 1, 1);
}

/* The one across i has two beside it that do not work, so that it is unsafe; and
 * then one of x's own does not work, which only rule 3 bears. */
static void one_marked(uint32_t n, uint32_t x, uint32_t i, uint32_t j)
{
    uint32_t a = 0;
    while (a == i || a == j)
        a++;
    clear_cabinet();
    put_out(away(x, i, j));
    put_out(away(x, i, a));
    counts_are(n, 2 + random_below(2), x, 0, 1);
    put_out(x ^ 1u << j);
    counts_are(n, 3, x, 1, 2);
}

/* ---- all of them */

static void across_two(uint32_t n, uint32_t i, uint32_t j)
{
    two_out(n, any_node(n), i, j);
    if (n > 2) {
        two_marked(n, any_node(n), i, j);
        one_marked(n, any_node(n), i, j);
        one_marked(n, any_node(n), j, i);
    }
    for (uint32_t k = j + 1; k < n; k++)
        if ((i + j + k) % 2 == job)
            three_marked(n, any_node(n), i, j, k);
}

static void across_all(uint32_t n)
{
    clear_cabinet();
    counts_are(n, 2 + job, any_node(n), 0, 0);
    for (uint32_t i = 0; i < n; i++) {
        for (uint32_t rule = 2; rule <= 3; rule++) {
            one_out(n, rule, any_node(n), i);
            if (n > 2)
                all_but_one_out(n, rule, any_node(n), i);
        }
        for (uint32_t j = i + 1; j < n; j++)
            across_two(n, i, j);
    }
}

/* All of one and two dimensions for both jobs, each three for one of them. */
void check_why_named(void)
{
    begin_group("why: neighbours out across one, two and three dimensions");
    for (job = 0; job < 2; job++)
        for (uint32_t n = 1; n <= 12; n++)
            across_all(n);
    end_group();
}
