/*
 * combinations_label.c: labelling with all that it refuses, in every
 * combination, and why a node has its label, where it is the last node or, as
 * often, none. Which refusal is due stands here once more, as in
 * combinations.c.
 */
#include "combinations.h"

#include "cases.h"
#include "check.h"
#include "groups.h"
#include "lent.h"

static uint8_t faults[MOST_LENT], draining[MOST_LENT], closed[MOST_LENT];
static uint8_t labels[MOST_LENT];

/* 16 is a bit of no node where n is 1 or 2. */
static const uint8_t bytes[] = {0, 3, 16};

static unsigned label_due(struct label_question asked, int wrong_length)
{
    if (asked.n < 1 || asked.n > 12)
        return 1;
    if (asked.rule < 2 || asked.rule > 3)
        return 18;
    if (asked.job > 1)
        return 19;
    if (wrong_length)
        return 2;
    return asked.n < 3 && (faults[0] | draining[0] | closed[0]) & 16 ? 3 : 0;
}

static void label_combination(uint32_t n, uint32_t rule, uint32_t job,
                              const unsigned *lengths, unsigned from)
{
    struct label_question asked = fit_label(n & 255, faults, labels);
    int wrong_length = lengths[0] || lengths[1] || lengths[2] || lengths[3];
    uint32_t last = (1u << (n & 255)) - 1, beyond = random_below(2);
    unsigned due;
    asked.n = n;
    asked.rule = rule;
    asked.job = job;
    asked.faults_len = length_of(lengths[0], asked.faults_len);
    asked.draining = draining;
    asked.draining_len = length_of(lengths[1], asked.draining_len);
    asked.closed = closed;
    asked.closed_len = length_of(lengths[2], asked.closed_len);
    asked.labels_len = length_of(lengths[3], asked.labels_len);
    due = label_due(asked, wrong_length);
    is_due("label", from, check_label(asked), due);
    if (due == 0 && beyond)
        due = 5;
    is_due("why a label", from, check_why_node(asked, last + beyond), due);
}

/* Lengths of all four buffers at once, and bytes of all three tables. */
static unsigned all_labels(unsigned from)
{
    static const uint32_t some_jobs[] = {0, 1, 2, 257};
    uint32_t n, rule, job;
    unsigned lengths[4];
    number = from;
    n = ANY_OF(small_ones);
    rule = 1 + part(4);
    job = ANY_OF(some_jobs);
    for (unsigned k = 0; k < 4; k++)
        lengths[k] = part(k < 3 ? LONG + 1 : HALVED + 1);
    faults[0] = ANY_OF(bytes);
    draining[0] = ANY_OF(bytes);
    closed[0] = ANY_OF(bytes);
    if (number == 0)
        label_combination(n, rule, job, lengths, from);
    return number;
}

/* Every job, and every length of one buffer, and an unused bit of one table. */
static unsigned all_jobs(unsigned from)
{
    static uint8_t none[1];
    uint8_t *tables[] = {faults, draining, closed, none};
    uint32_t n, rule, job;
    unsigned lengths[4] = {RIGHT, RIGHT, RIGHT, RIGHT}, which;
    number = from;
    n = ANY_OF(dimensions);
    rule = 1 + part(4);
    job = ANY_OF(jobs);
    which = part(4);
    lengths[which] = part(LENGTHS);
    faults[0] = draining[0] = closed[0] = 0;
    *ANY_OF(tables) = 16;
    if (number == 0)
        label_combination(n, rule, job, lengths, from);
    return number;
}

void check_label_combinations(void)
{
    check_all("labelling, all that is refused in every combination", all_labels);
}

void check_job_combinations(void)
{
    check_all("labelling, every job and length with what is refused", all_jobs);
}
