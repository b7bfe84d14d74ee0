/* seen.c: counts of what the checks have seen. */
#include "seen.h"

#include "cases.h"
#include "check.h"

struct seen seen;

void count_one(unsigned long *counts, size_t room, const char *what,
               uint64_t number)
{
    if (number < room)
        counts[number]++;
    else
        expect(0, "%s: there is no room to count %llu", what,
               (unsigned long long)number);
}

unsigned whose(uint32_t job)
{
    return job < NO_JOB ? job : NO_JOB;
}

/* In small cubes alone: they have enough of each. */
static void count_tables(struct label_question asked)
{
    for (uint32_t k = 0; asked.n <= 5 && k < HCUBE_NODES(asked.n); k++)
        SEEN(tables, in_table(asked.faults, k) +
                         2u * in_table(asked.draining, k) +
                         4u * in_table(asked.closed, k));
}

void saw_label(struct label_question asked, uint32_t answer,
               const uint8_t *labels)
{
    uint32_t exchanges = HCUBE_VALUE(answer);
    SEEN(refusal[LABEL][whose(asked.job)], HCUBE_REFUSAL(answer));
    if (HCUBE_REFUSAL(answer))
        return;
    SEEN(cube[LABEL][whose(asked.job)], asked.n);
    SEEN(rule, asked.rule);
    SEEN(exchanges, exchanges < 10 ? exchanges : 10);
    labels += HCUBE_HALF(asked.n, asked.job);
    for (uint32_t k = 0; k < HCUBE_NODES(asked.n); k++)
        SEEN(label, labels[k]);
    count_tables(asked);
}

void saw_hop(struct hop_question asked, uint32_t answer)
{
    const uint8_t *half;
    uint32_t dimension = 0;
    SEEN(refusal[HOP][whose(asked.job)], HCUBE_REFUSAL(answer));
    if (HCUBE_REFUSAL(answer))
        return;
    half = asked.labels + HCUBE_HALF(asked.n, asked.job);
    SEEN(cube[HOP][whose(asked.job)], asked.n);
    SEEN(hop_kind, HCUBE_KIND(answer));
    SEEN(hop_at, half[asked.c]);
    SEEN(scan, ref_scan(asked.n, asked.c, asked.d, half, &dimension));
    if (HCUBE_KIND(answer) == HCUBE_HOP)
        SEEN(dimension, dimension);
}

static void count_cause(uint32_t rule, uint64_t answer)
{
    uint64_t cause = HCUBE_WHY_CAUSE(answer), round = HCUBE_VALUE(answer);
    SEEN(cause[rule], cause);
    SEEN(round, round < 10 ? round : round < 100 ? 10 : 11);
    SEEN(named[0], HCUBE_WHY_FIRST(answer));
    SEEN(named[1], HCUBE_WHY_SECOND(answer));
    if (cause == HCUBE_CAUSE_MARKED && rule == HCUBE_RULE_CHIU_WU)
        SEEN(named[2], HCUBE_WHY_THIRD(answer));
}

void saw_why_node(struct label_question asked, uint64_t answer)
{
    uint64_t label = HCUBE_KIND(answer);
    SEEN(refusal[WHY_NODE][whose(asked.job)], HCUBE_REFUSAL(answer));
    if (HCUBE_REFUSAL(answer))
        return;
    SEEN(cube[WHY_NODE][whose(asked.job)], asked.n);
    SEEN(why_label, label);
    if (label == HCUBE_ORDINARY || label == HCUBE_STRONG)
        count_cause(asked.rule, answer);
    else
        SEEN(cause[asked.rule], HCUBE_CAUSE_NONE);
    if (label == HCUBE_SAFE)
        SEEN(beside_safe[HCUBE_WHY_FIRST(answer) != 0],
             HCUBE_WHY_SECOND(answer));
}

void saw_why_hop(struct hop_question asked, uint32_t answer)
{
    SEEN(refusal[WHY_HOP][whose(asked.job)], HCUBE_REFUSAL(answer));
    if (HCUBE_REFUSAL(answer))
        return;
    SEEN(cube[WHY_HOP][whose(asked.job)], asked.n);
    if (HCUBE_KIND(answer) == HCUBE_HOP)
        SEEN(why_scan, HCUBE_WHY_SCAN(answer));
}

void saw_walk(struct walk_question asked, uint32_t answer)
{
    uint32_t hops = HCUBE_VALUE(answer);
    SEEN(refusal[WALK][whose(asked.job)], HCUBE_REFUSAL(answer));
    if (HCUBE_REFUSAL(answer))
        return;
    SEEN(cube[WALK][whose(asked.job)], asked.n);
    SEEN(walk_kind, HCUBE_KIND(answer));
    if (HCUBE_KIND(answer) != HCUBE_WALK_DELIVERED)
        return;
    SEEN(walk_hops, hops);
    if (asked.labels[HCUBE_HALF(asked.n, asked.job) + asked.d] == HCUBE_DRAINING)
        SEEN(drained_hops, hops);
    if (hops == asked.n + 4)
        SEEN(longest, asked.n);
}

void saw_notice(uint64_t answer)
{
    SEEN(refusal[NOTICE][0], HCUBE_REFUSAL(answer));
    if (HCUBE_REFUSAL(answer) == 0)
        SEEN(cube[NOTICE][0], HCUBE_NOTICE_DIMENSION(answer));
}

void saw_dimension(uint32_t answer)
{
    SEEN(refusal[DIMENSION][0], HCUBE_REFUSAL(answer));
    if (HCUBE_REFUSAL(answer) == 0)
        SEEN(cube[DIMENSION][0], HCUBE_VALUE(answer));
}

void saw_write(struct write_question asked, uint32_t answer,
               const uint8_t *out)
{
    uint32_t groups;
    SEEN(refusal[WRITE][0], HCUBE_REFUSAL(answer));
    if (HCUBE_REFUSAL(answer))
        return;
    SEEN(cube[WRITE][0], asked.n);
    /* of a long notice the first numbers */
    for (uint32_t at = 1, k = 0; at < HCUBE_VALUE(answer) && k < 100;
         at += groups, k++) {
        groups = out[at] < 128 ? 1 : 2;
        SEEN(groups[k < 2 ? k : 2], groups);
    }
}

/* Of a long text the first numbers. It is a list, so a number ends where another
 * sign stands. */
static void count_digits(unsigned written, const uint8_t *text, size_t len)
{
    size_t begins = 0;
    if (len > 500)
        len = 500;
    for (size_t at = 0; at < len; at++) {
        unsigned place = 0;
        if (text[at] >= '0')
            continue;
        if (begins > 0 && text[begins - 1] == '-')
            place = 2;
        else if (text[at] == '-')
            place = 1;
        SEEN(digits[written][place], at - begins);
        begins = at + 1;
    }
}

void saw_list(struct list_question asked, uint32_t answer)
{
    SEEN(refusal[LIST][0], HCUBE_REFUSAL(answer));
    if (HCUBE_REFUSAL(answer))
        return;
    SEEN(cube[LIST][0], asked.n);
    count_digits(0, asked.text, asked.text_len);
}

void saw_write_list(struct write_question asked, uint32_t answer,
                    const uint8_t *out)
{
    SEEN(refusal[WRITE_LIST][0], HCUBE_REFUSAL(answer));
    if (HCUBE_REFUSAL(answer))
        return;
    SEEN(cube[WRITE_LIST][0], asked.n);
    count_digits(1, out, HCUBE_VALUE(answer));
}

/* How many of the neighbours of k name it, of those that are faulty or of the
 * others. */
static unsigned count_namers(struct repair_question asked, uint32_t k, int faulty)
{
    unsigned count = 0;
    for (uint32_t i = 0; i < asked.n; i++) {
        uint32_t w = k ^ 1u << i;
        count += in_table(asked.faults, w) == faulty && asked.masks[w] >> i & 1;
    }
    return count;
}

static void count_named(struct repair_question asked, uint32_t k, uint16_t by)
{
    unsigned heard = count_namers(asked, k, 0);
    uint32_t across = 0;
    if (heard == 0 && count_namers(asked, k, 1) > 0)
        SEEN(unheard, (unsigned)in_table(asked.faults, k));
    if (by == 0)
        return;
    while (across < asked.n && (k ^ 1u << across) != by - 1u)
        across++;
    SEEN(namers, heard);
    SEEN(across, across);
}

void saw_repair(struct repair_question asked, uint32_t answer,
                const uint16_t *row)
{
    SEEN(refusal[REPAIR][0], HCUBE_REFUSAL(answer));
    if (HCUBE_REFUSAL(answer))
        return;
    SEEN(cube[REPAIR][0], asked.n);
    for (uint32_t k = 0; k < HCUBE_NODES(asked.n); k++)
        count_named(asked, k, row[k]);
}
