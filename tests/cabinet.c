/* cabinet.c: the cabinet at hand, and what is asked about it. */
#include "cabinet.h"

#include <string.h>

#include "cases.h"
#include "check.h"

uint8_t faults[MOST_FAULT_BYTES], draining[MOST_FAULT_BYTES];
uint8_t closed[MOST_FAULT_BYTES];
uint8_t labels[MOST_NODES];

void clear_cabinet(void)
{
    memset(faults, 0, sizeof faults);
    memset(draining, 0, sizeof draining);
    memset(closed, 0, sizeof closed);
}

void put_out(uint32_t k)
{
    uint8_t *tables[] = {faults, draining, closed};
    put_node(tables[random_below(3)], k);
}

int is_out(uint32_t k)
{
    return in_table(faults, k) || in_table(draining, k) || in_table(closed, k);
}

void random_cabinet(uint32_t n, unsigned per_mille)
{
    random_faults(n, per_mille, faults);
    random_draining(n, faults, draining);
    random_closed(n, faults, draining, closed);
}

static struct label_question fit_cabinet(uint32_t n, uint32_t rule)
{
    struct label_question asked;
    random_bytes(labels, (size_t)1 << n);
    asked = fit_label(n, faults, labels);
    asked.rule = rule;
    asked.draining = draining;
    asked.closed = closed;
    return asked;
}

static uint32_t check_cabinet(struct label_question asked)
{
    uint32_t answer = check_label(asked);
    keep_half(asked, labels);
    return answer;
}

uint32_t label_cabinet(uint32_t n, uint32_t rule)
{
    return check_cabinet(fit_cabinet(n, rule));
}

uint32_t label_for(uint32_t n, uint32_t rule, uint32_t job)
{
    struct label_question asked = fit_cabinet(n, rule);
    asked.job = job;
    return check_cabinet(asked);
}

void mixed_labels(uint32_t n)
{
    unsigned safe = random_below(100);
    random_labels(n, LAST_LABEL, labels);
    for (uint32_t k = 0; k < 1u << n; k++)
        if (random_below(100) < safe)
            labels[k] = (uint8_t)(random_below(2) ? 0 : 3 + random_below(2));
}

uint32_t walk_by(const uint8_t *by, uint32_t n, uint32_t s, uint32_t d,
                 uint8_t *row)
{
    random_bytes(row, ROW_BYTES);
    return check_walk(fit_walk(n, s, d, by, row));
}

static void hop_and_walk(uint32_t n, uint32_t s, uint32_t d)
{
    uint8_t row[ROW_BYTES];
    check_hop(fit_hop(n, s, d, labels));
    walk_by(labels, n, s, d, row);
}

void all_pairs(uint32_t n)
{
    for (uint32_t s = 0; s < 1u << n; s++)
        for (uint32_t d = 0; d < 1u << n; d++)
            hop_and_walk(n, s, d);
}

uint32_t some_draining(uint32_t n)
{
    uint32_t k = random_below(1u << n);
    for (unsigned tries = 0; tries < 8 && labels[k] != HCUBE_DRAINING; tries++)
        k = random_below(1u << n);
    return k;
}

void some_pairs(uint32_t n, unsigned count)
{
    uint32_t d = some_draining(n);
    while (count--)
        hop_and_walk(n, random_below(1u << n), random_below(1u << n));
    hop_and_walk(n, random_below(1u << n), d);
    hop_and_walk(n, d ^ 1u << random_below(n), d);
}
