/*
 * halves.c: what the other half of a label buffer holds changes no answer, no
 * row and no byte of a job's own half, and refusal 4 never comes from there.
 * What is expected is what the library answers over a half of zeros. Why a hop
 * is taken is asked with each hop, by check.c.
 */
#include <string.h>

#include "cabinet.h"
#include "cases.h"
#include "check.h"
#include "groups.h"

static uint8_t both[MOST_LABEL_BYTES];

/* What the other half holds: one byte all over, any bytes, or good labels of which
 * one byte, or none, is no label. That one is the byte beside this job's half, the
 * one at the buffer's other end, c's own, or a neighbour's of c. */
enum { ZEROS, FIVES, ONES, ANY, LABELS, BESIDE, FAR, SAME, ACROSS, FILLS };

static void fill_other(uint32_t n, uint32_t job, unsigned fill, uint32_t c)
{
    uint8_t *other = both + HCUBE_HALF(n, 1 - job);
    uint32_t last = (1u << n) - 1;
    uint8_t bad = (uint8_t)(LAST_LABEL + 1 + random_below(255 - LAST_LABEL));
    random_labels(n, LAST_LABEL, other);
    switch (fill) {
    case ZEROS: memset(other, 0, HCUBE_NODES(n)); break;
    case FIVES: memset(other, LAST_LABEL + 1, HCUBE_NODES(n)); break;
    case ONES: memset(other, 0xff, HCUBE_NODES(n)); break;
    case ANY: random_bytes(other, HCUBE_NODES(n)); break;
    case BESIDE: other[job == 0 ? 0 : last] = bad; break;
    case FAR: other[job == 0 ? last : 0] = bad; break;
    case SAME: other[c] = bad; break;
    case ACROSS: other[c ^ 1u << random_below(n)] = bad; break;
    }
}

/* ---- questions by the labels at hand, for this job, beside such a half */

struct answers {
    uint32_t hop, walk, label, net_hop, net_walk;
    uint8_t row[ROW_BYTES], half[MOST_NODES], hops[HCUBE_HOPS_BYTES_MAX];
};

static void put_own(uint32_t n, uint32_t job)
{
    memcpy(both + HCUBE_HALF(n, job), labels, HCUBE_NODES(n));
}

/* By so many networks; the hop is that of a message that came down. */
static void ask_networks(uint32_t n, uint32_t networks, uint32_t job, uint32_t c,
                         uint32_t d, struct answers *to)
{
    struct net_hop_question hop = fit_net_hop(n, c, d, labels);
    struct net_walk_question walk = fit_net_walk(n, networks, c, d, labels, to->hops);
    hop.job = walk.job = job;
    hop.labels = walk.labels = both;
    hop.networks = networks;
    hop.down = 1;
    memset(to->hops, 0xee, sizeof to->hops);
    to->net_hop = check_net_hop(hop);
    to->net_walk = check_net_walk(walk);
}

static void ask_all(uint32_t n, uint32_t rule, uint32_t job, uint32_t c,
                    uint32_t d, struct answers *to)
{
    struct hop_question hop = fit_hop(n, c, d, labels);
    struct walk_question walk = fit_walk(n, c, d, labels, to->row);
    struct label_question label = fit_label(n, faults, labels);
    hop.job = walk.job = label.job = job;
    hop.labels = walk.labels = label.labels = both;
    label.rule = rule;
    label.draining = draining;
    label.closed = closed;
    memset(to->row, 0xee, sizeof to->row);
    ask_networks(n, rule - 1, job, c, d, to); /* one network, or two */
    to->hop = check_hop(hop);
    to->walk = check_walk(walk);
    to->label = check_label(label);
    keep_half(label, to->half);
}

/* Why c has its label, beside such a half. */
static uint64_t why_beside(uint32_t n, uint32_t rule, uint32_t job, uint32_t c,
                           unsigned fill)
{
    struct label_question asked = fit_label(n, faults, labels);
    fill_other(n, job, fill, c);
    asked.rule = rule;
    asked.job = job;
    asked.draining = draining;
    asked.closed = closed;
    asked.labels = both;
    return check_why_node(asked, c);
}

static int same(uint32_t n, const struct answers *a, const struct answers *b)
{
    return a->hop == b->hop && a->walk == b->walk && a->label == b->label &&
           a->net_hop == b->net_hop && a->net_walk == b->net_walk &&
           !memcmp(a->hops, b->hops, sizeof a->hops) &&
           !memcmp(a->row, b->row, sizeof a->row) &&
           !memcmp(a->half, b->half, HCUBE_NODES(n));
}

/* All good labels: never 4, and every answer as over zeros. */
static void any_other_half(uint32_t n, uint32_t job, uint32_t c)
{
    static struct answers calm, now;
    uint32_t d = random_below(1u << n), rule = 2 + random_below(2);
    uint64_t why = why_beside(n, rule, job, c, ZEROS);
    put_own(n, job);
    fill_other(n, job, ZEROS, c);
    ask_all(n, rule, job, c, d, &calm);
    for (unsigned fill = FIVES; fill <= LABELS; fill++)
        expect(why_beside(n, rule, job, c, fill) == why,
               "n = %u, job %u, node %u, other half %u: another why", n, job, c,
               fill);
    for (unsigned fill = ZEROS + 1; fill < FILLS; fill++) {
        put_own(n, job);
        fill_other(n, job, fill, c);
        ask_all(n, rule, job, c, d, &now);
        expect(HCUBE_REFUSAL(now.hop) != 4 && HCUBE_REFUSAL(now.walk) != 4 &&
                   HCUBE_REFUSAL(now.net_hop) != 4 &&
                   HCUBE_REFUSAL(now.net_walk) != 4,
               "n = %u, job %u, at %u, other half %u: 4", n, job, c, fill);
        expect(same(n, &calm, &now),
               "n = %u, job %u, at %u, other half %u: another answer", n, job, c,
               fill);
    }
}

/* One byte of the own half is no label: a walk is refused with 4 wherever it is,
 * a hop where it is c's or a neighbour's; a half of zeros beside it is no help. */
static void bad_own_half(uint32_t n, uint32_t job, uint32_t c, uint32_t k)
{
    static struct answers now;
    uint8_t kept = labels[k];
    int near = k == c;
    for (uint32_t i = 0; i < n; i++)
        near |= k == (c ^ 1u << i);
    labels[k] = (uint8_t)(LAST_LABEL + 1 + random_below(255 - LAST_LABEL));
    put_own(n, job);
    fill_other(n, job, random_below(2) ? ZEROS : LABELS, c);
    ask_all(n, 3, job, c, random_below(1u << n), &now);
    expect(now.walk == REFUSED(4) && now.net_walk == REFUSED(4),
           "n = %u, job %u: walk over a bad byte at %u", n, job, k);
    expect((HCUBE_REFUSAL(now.hop) == 4) == near &&
               (HCUBE_REFUSAL(now.net_hop) == 4) == near,
           "n = %u, job %u: hop at %u with a bad byte at %u: %08x", n, job, c, k,
           now.hop);
    labels[k] = kept;
}

void check_halves(void)
{
    begin_group("anything in the other half, n = 1 to 12, both jobs");
    for (unsigned k = 0; k < 12 * 2 * 3 * 6; k++) {
        uint32_t n = 1 + k % 12, job = k / 12 % 2, last = (1u << n) - 1;
        uint32_t ends[] = {0, last, random_below(1u << n)};
        random_cabinet(n, random_density(n) / 2);
        if (k % 5)
            label_cabinet(n, 3);
        else
            random_labels(n, LAST_LABEL, labels);
        any_other_half(n, job, ends[k / 24 % 3]);
        bad_own_half(n, job, ends[k / 24 % 3], 0);
        bad_own_half(n, job, ends[k / 24 % 3], last);
        bad_own_half(n, job, ends[k / 24 % 3], random_below(1u << n));
    }
    end_group();
}
