/*
 * refusals.c: labelling, hop and walk on inputs that are refused: random
 * damage, and numbers that would fit once narrowed. Why a node has its label is
 * asked with labelling's inputs; why a hop is taken is asked with each hop, by
 * check.c.
 */
#include <string.h>

#include "cases.h"
#include "check.h"
#include "damage.h"
#include "groups.h"
#include "lent.h"
#include "reference.h"

static uint8_t faults[MOST_LENT], draining[MOST_LENT], closed[MOST_LENT];
static uint8_t labels[MOST_LENT], row[MOST_LENT];

/* ---- random damage */

static uint32_t any_rule(void)
{
    static const uint32_t bad[] = {0, 1, 4, 5, 130, 131, 256 + 2, 65536 + 3,
                                   0x80000002u, 0xffffffffu};
    return random_below(12) ? 2 + random_below(2)
                            : bad[random_below(COUNT(bad))];
}

/* Some bytes that are no label: none, one at a place near c, or one anywhere. */
static void damage_labels(uint32_t n, uint32_t c)
{
    uint32_t nodes = 1u << n, k = random_below(nodes);
    if (random_below(4) == 0)
        labels[(c ^ 1u << random_below(n)) & (nodes - 1)] = no_label();
    if (random_below(8) == 0)
        labels[k] = no_label();
    if (random_below(8) == 0)
        labels[c & (nodes - 1)] = random_below(2) ? no_label() : (uint8_t)(HCUBE_FAULTY + random_below(2));
}

/* A bit of the first byte more, which is none for a node where n is 1 or 2. */
static void damage_table(uint8_t *table)
{
    if (random_below(4) == 0)
        table[0] |= (uint8_t)(1u << random_below(8));
}

/* `fitting` is the dimension that the tables are made for. */
static void damaged_label(uint32_t n, uint32_t fitting)
{
    struct label_question asked = fit_label(fitting, faults, labels);
    random_faults(fitting, random_density(fitting), faults);
    random_draining(fitting, faults, draining);
    random_closed(fitting, faults, draining, closed);
    damage_table(faults);
    damage_table(draining);
    damage_table(closed);
    asked.n = n;
    asked.rule = any_rule();
    asked.job = any_job();
    asked.faults_len = any_length(asked.faults_len);
    asked.draining = draining;
    asked.draining_len = any_length(asked.draining_len);
    asked.closed = closed;
    asked.closed_len = any_length(asked.closed_len);
    asked.labels_len = any_length(asked.labels_len);
    check_label(asked);
    if (random_below(4) == 0)
        check_why_node(asked, any_node(fitting));
}

static void damaged_hop_and_walk(uint32_t n, uint32_t fitting)
{
    uint32_t s = any_node(fitting), d = any_node(fitting), job = any_job();
    struct hop_question hop;
    struct walk_question walk;
    random_labels(fitting, LAST_LABEL, labels);
    damage_labels(fitting, s);
    hop = fit_hop(fitting, s, d, labels);
    walk = fit_walk(fitting, s, d, labels, row);
    hop.n = walk.n = n;
    if (job > 1)
        hop.job = walk.job = job;
    hop.labels_len = any_length(hop.labels_len);
    check_hop(hop);
    walk.labels_len = any_length(walk.labels_len);
    walk.row_len = any_length(walk.row_len);
    check_walk(walk);
}

void check_damaged(void)
{
    begin_group("24,000 damaged tables");
    for (unsigned k = 0; k < 24000; k++) {
        uint32_t n = any_dimension(), fitting = 1 + (n - 1) % 12;
        damaged_label(n, fitting);
        damaged_hop_and_walk(n, fitting);
    }
    end_group();
}

/* ---- numbers that would be good once narrowed to 8 or 16 bits */

/* Asked with the tables of n = 4, whatever n is given: nobody is faulty. */
static struct label_question of_4(uint32_t n, uint32_t rule, uint32_t job)
{
    struct label_question asked = fit_label(4, faults, row);
    asked.n = n;
    asked.rule = rule;
    asked.job = job;
    return asked;
}

static uint32_t label_at_4(uint32_t n, uint32_t rule, uint32_t job)
{
    return check_label(of_4(n, rule, job));
}

static uint64_t why_at_4(uint32_t n, uint32_t rule, uint32_t job, uint32_t x)
{
    return check_why_node(of_4(n, rule, job), x);
}

static uint32_t hop_at_4(uint32_t n, uint32_t c, uint32_t d)
{
    struct hop_question asked = fit_hop(4, c, d, labels);
    asked.n = n;
    return check_hop(asked);
}

/* For this job, which is none: all labels of the buffer are safe. */
static void no_job(uint32_t job)
{
    struct hop_question hop = fit_hop(4, 0, 1, labels);
    struct walk_question walk = fit_walk(4, 0, 1, labels, row);
    hop.job = walk.job = job;
    hop.labels = walk.labels = labels;
    expect(label_at_4(4, 3, job) == REFUSED(19), "label for job %u", job);
    expect(why_at_4(4, 3, job, 1) == REFUSED(19), "why for job %u", job);
    expect(check_hop(hop) == REFUSED(19), "hop for job %u", job);
    expect(check_walk(walk) == REFUSED(19), "walk for job %u", job);
}

static uint32_t walk_at_4(uint32_t n, uint32_t s, uint32_t d)
{
    struct walk_question asked = fit_walk(4, s, d, labels, row);
    asked.n = n;
    return check_walk(asked);
}

/* Each number of the question about a node with so many more. */
static void why_with_more(uint32_t more)
{
    expect(why_at_4(4 + more, 3, 0, 1) == REFUSED(1), "why, n");
    expect(why_at_4(4, 2 + more, 1, 1) == REFUSED(18), "why by rule 2");
    expect(why_at_4(4, 3 + more, 0, 1) == REFUSED(18), "why by rule 3");
    for (uint32_t x = 0; x < 16; x++) {
        expect(why_at_4(4, 3, 0, x + more) == REFUSED(5), "node %u", x + more);
        expect(why_at_4(4, 2, 1, x + more) == REFUSED(5), "node %u", x + more);
    }
}

void check_plain_numbers(void)
{
    static const uint32_t more[] = {16, 256, 65536, 65536 * 3, 1u << 24,
                                    1u << 31, 0u - 16};
    begin_group("numbers tested before they are narrowed");
    memset(faults, 0, sizeof faults);
    memset(labels, 0, sizeof labels);
    for (unsigned k = 0; k < COUNT(more); k++) {
        expect(label_at_4(4 + more[k], 3, 0) == REFUSED(1), "label");
        expect(label_at_4(4, 2 + more[k], 1) == REFUSED(18), "rule 2");
        expect(label_at_4(4, 3 + more[k], 0) == REFUSED(18), "rule 3");
        why_with_more(more[k]);
        no_job(more[k]);
        no_job(more[k] + 1);
        expect(hop_at_4(4 + more[k], 0, 1) == REFUSED(1), "hop");
        expect(walk_at_4(4 + more[k], 0, 1) == REFUSED(1), "walk");
        expect(hop_at_4(4, more[k], 1) == REFUSED(5), "c");
        expect(hop_at_4(4, 1, more[k] + 2) == REFUSED(5), "d");
        expect(walk_at_4(4, more[k] + 3, 1) == REFUSED(5), "source");
        expect(walk_at_4(4, 1, more[k]) == REFUSED(5), "destination");
    }
    for (uint32_t job = 2; job < 600; job++)
        no_job(job);
    for (unsigned i = 1; i < 32; i++) {
        if (i >= 4)
            expect(why_at_4(4, 3, 0, 1u << i) == REFUSED(5), "node 2^%u", i);
        no_job(1u << i);
        no_job((1u << i) + 1);
        no_job(0u - (1u << i));
    }
    no_job(0xffffffffu);
    expect(why_at_4(4, 3, 0, 0xffffffffu) == REFUSED(5), "node");
    expect(hop_at_4(0xffffffffu, 0, 0) == REFUSED(1), "n");
    expect(hop_at_4(4, 0xffffffffu, 0) == REFUSED(5), "c");
    expect(walk_at_4(4, 0, 0xffffffffu) == REFUSED(5), "d");
    end_group();
}
