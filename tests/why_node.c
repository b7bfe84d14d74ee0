/*
 * why_node.c: why a node has its label (RULES, Why a node has its label): all
 * fault tables of small cubes, random cabinets, and the tables with the most
 * rounds that are known. Causes that are made one by one are in why_named.c.
 */
#include "why.h"

#include <string.h>

#include "cabinet.h"
#include "cases.h"
#include "check.h"
#include "groups.h"
#include "most.h"

/* ---- the cabinet at hand */

static struct label_question at_hand;
static struct ref_marks marks;
/* The label buffer before labelling, and what labelling left there. */
static uint8_t before[MOST_LABEL_BYTES], after[MOST_LABEL_BYTES];
static uint64_t answers[MOST_NODES];
static uint8_t is_asked[MOST_NODES];

void begin_why(uint32_t n, uint32_t rule)
{
    at_hand = fit_label(n, faults, labels);
    at_hand.rule = rule;
    at_hand.draining = draining;
    at_hand.closed = closed;
    memcpy(before, at_hand.labels, at_hand.labels_len);
    expect(HCUBE_REFUSAL(ask_label(at_hand)) == 0, "n = %u: refused", n);
    memcpy(after, at_hand.labels, at_hand.labels_len);
    keep_half(at_hand, labels);
    ref_rounds(n, rule, faults, draining, closed, &marks);
    memset(is_asked, 0, HCUBE_NODES(n));
}

uint64_t why_of(uint32_t x)
{
    uint64_t want;
    if (is_asked[x])
        return answers[x];
    is_asked[x] = 1;
    memcpy(at_hand.labels, before, at_hand.labels_len);
    want = ref_why(at_hand.n, at_hand.rule, &marks, x);
    answers[x] = ask_why_node(at_hand, x);
    expect(answers[x] == want, "n = %u by %u, node %u: %016llx, not %016llx",
           at_hand.n, at_hand.rule, x, (unsigned long long)answers[x],
           (unsigned long long)want);
    expect(!memcmp(at_hand.labels, after, at_hand.labels_len),
           "n = %u by %u, node %u: not what labelling leaves", at_hand.n,
           at_hand.rule, x);
    saw_why_node(at_hand, want);
    return answers[x];
}

void show_why(uint32_t x)
{
    memcpy(at_hand.labels, before, at_hand.labels_len);
    ask_why_node(at_hand, x);
}

static void why_all(uint32_t n, uint32_t rule)
{
    begin_why(n, rule);
    for (uint32_t x = 0; x < 1u << n; x++) {
        check_true(n, rule, x);
        check_followed(n, rule, x);
    }
}

/* ---- all fault tables */

void check_why_small(void)
{
    begin_group("why: every node of all fault tables to n = 4, both rules");
    clear_cabinet();
    for (uint32_t n = 1; n <= 4; n++)
        for (uint32_t table = 0; table < 1u << (1u << n); table++) {
            faults[0] = (uint8_t)table;
            faults[1] = (uint8_t)(table >> 8);
            why_all(n, 2);
            why_all(n, 3);
        }
    end_group();
}

/* ---- random cabinets */

/* The next node from a random one on that was marked in one of these rounds; if
 * none was, the random one. */
static uint32_t marked_in(uint32_t n, unsigned first, unsigned last)
{
    uint32_t most = (1u << n) - 1, from = random_below(1u << n);
    for (uint32_t k = 0; k <= most; k++) {
        unsigned round = marks.round[(from + k) & most];
        if (round >= first && round <= last)
            return (from + k) & most;
    }
    return from;
}

static unsigned last_round(uint32_t n)
{
    unsigned last = 1;
    for (uint32_t k = 0; k < 1u << n; k++)
        if (marks.round[k] != NOT_MARKED && marks.round[k] > last)
            last = marks.round[k];
    return last;
}

static void why_some(uint32_t n, uint32_t rule)
{
    uint32_t nodes[4];
    unsigned last;
    begin_why(n, rule);
    last = last_round(n);
    nodes[0] = random_below(1u << n);
    nodes[1] = marked_in(n, 1, last);
    nodes[2] = marked_in(n, 2, last);
    nodes[3] = marked_in(n, last, last);
    for (unsigned k = 0; k < COUNT(nodes); k++) {
        check_true(n, rule, nodes[k]);
        check_followed(n, rule, nodes[k]);
    }
    check_why_node(at_hand, nodes[random_below(4)]);
}

void check_why_random(void)
{
    begin_group("why: random cabinets to n = 12, both rules");
    for (unsigned k = 0; k < 4000; k++) {
        uint32_t n = 1 + k % 4;
        random_cabinet(n, random_density(n));
        why_all(n, 2 + k / 4 % 2);
    }
    for (unsigned k = 0; k < 8 * 40; k++) {
        uint32_t n = 5 + k % 8;
        random_cabinet(n, random_density(n) / (1 + k / 16 % 3));
        why_some(n, 2 + k / 8 % 2);
    }
    end_group();
}

/* ---- many rounds */

/* A node of the last round, and one of some rounds before it each. */
static void many_rounds(const struct most *most, int faulty)
{
    unsigned last = most->exchanges - 1;
    uint32_t x;
    clear_cabinet();
    for (unsigned k = 0; k < most->count; k++)
        if (faulty)
            put_node(faults, most->nodes[k]);
        else
            put_out(most->nodes[k]);
    begin_why(most->n, most->rule);
    x = marked_in(most->n, last, last);
    check_true(most->n, most->rule, x);
    check_followed(most->n, most->rule, x);
    for (unsigned round = last; round > 0; round -= 1 + round / 3) {
        uint32_t y = round == last ? x : marked_in(most->n, round, round);
        expect(HCUBE_VALUE(why_of(y)) == round, "n = %u by %u: not in round %u",
               most->n, most->rule, round);
    }
}

void check_why_rounds(void)
{
    begin_group("why: tables with the most rounds that are known");
    for (size_t k = 0; k < COUNT(most_known); k++) {
        many_rounds(&most_known[k], 0);
        if (most_known[k].n < 10) /* larger ones take long */
            many_rounds(&most_known[k], 1);
    }
    end_group();
}
