/*
 * jobs.c: two jobs on one cabinet (RULES, Which nodes work). Each job is held
 * against a cabinet of its own: the reference on a buffer of its own, whose fault
 * table has the closed nodes too. So nothing here rests on what the reference knows
 * of jobs.
 */
#include <string.h>

#include "cabinet.h"
#include "cases.h"
#include "check.h"
#include "groups.h"

/* The cabinet that both share is in `faults` and `draining`. */
static uint8_t shut[2][MOST_FAULT_BYTES]; /* what each job closes */
static uint8_t both[MOST_LABEL_BYTES];    /* the label buffer */
static uint8_t own[2][MOST_LABEL_BYTES];  /* each job's own, its labels first */

static const uint8_t none[MOST_FAULT_BYTES];

/* The label buffer holds what the two cabinets hold, every byte of it. */
static void holds_both(uint32_t n, const char *after)
{
    expect(!memcmp(both, own[0], HCUBE_NODES(n)) &&
               !memcmp(both + HCUBE_NODES(n), own[1], HCUBE_NODES(n)),
           "n = %u, after %s: the halves are not the two jobs'", n, after);
}

/* ---- each question for a job and to its own cabinet */

static struct label_question cabinet_of(uint32_t n, uint32_t rule, uint32_t job)
{
    struct label_question asked = fit_label(n, faults, own[job]);
    asked.rule = rule;
    asked.job = job;
    asked.draining = draining;
    asked.closed = shut[job];
    asked.labels = both;
    return asked;
}

/* The fault table with what the job closes. */
static const uint8_t *merged_of(uint32_t n, uint32_t job)
{
    static uint8_t merged[MOST_FAULT_BYTES];
    for (size_t k = 0; k < ref_fault_bytes(n); k++)
        merged[k] = faults[k] | shut[job][k];
    return merged;
}

static uint32_t label_job(uint32_t n, uint32_t rule, uint32_t job)
{
    const uint8_t *merged = merged_of(n, job);
    size_t len = ref_fault_bytes(n);
    uint32_t answer, want;
    want = ref_label(n, rule, 0, merged, len, draining, len, none, len, own[job],
                     ref_label_bytes(n));
    answer = check_label(cabinet_of(n, rule, job));
    expect(answer == want, "n = %u by %u, job %u: labelled with %08x, not %08x", n,
           rule, job, answer, want);
    holds_both(n, "labelling");
    return answer;
}

static void why_job(uint32_t n, uint32_t rule, uint32_t job, uint32_t x)
{
    const uint8_t *merged = merged_of(n, job);
    size_t len = ref_fault_bytes(n);
    uint64_t answer, want;
    want = ref_why_node(n, rule, 0, x, merged, len, draining, len, none, len,
                        own[job], ref_label_bytes(n));
    answer = check_why_node(cabinet_of(n, rule, job), x);
    expect(answer == want,
           "n = %u by %u, job %u: why %u is %016llx, not %016llx", n, rule, job,
           x, (unsigned long long)answer, (unsigned long long)want);
    holds_both(n, "why a label");
}

static void hop_job(uint32_t n, uint32_t job, uint32_t c, uint32_t d)
{
    struct hop_question asked = fit_hop(n, c, d, own[job]);
    uint32_t answer, want = ref_hop(n, 0, c, d, own[job], ref_label_bytes(n));
    asked.job = job;
    asked.labels = both;
    answer = check_hop(asked);
    expect(answer == want, "n = %u, job %u: hop %u to %u is %08x, not %08x", n,
           job, c, d, answer, want);
    holds_both(n, "a hop");
}

static void walk_job(uint32_t n, uint32_t job, uint32_t s, uint32_t d)
{
    uint8_t row[ROW_BYTES], want_row[ROW_BYTES];
    struct walk_question asked = fit_walk(n, s, d, own[job], row);
    uint32_t answer, want;
    random_bytes(row, sizeof row);
    memcpy(want_row, row, sizeof row);
    want = ref_walk(n, 0, s, d, own[job], ref_label_bytes(n), want_row,
                    sizeof want_row);
    asked.job = job;
    asked.labels = both;
    answer = check_walk(asked);
    expect(answer == want && !memcmp(row, want_row, sizeof row),
           "n = %u, job %u: walk %u to %u is %08x, not %08x", n, job, s, d, answer,
           want);
    holds_both(n, "a walk");
}

/* Hop and walk by networks. */
static void net_job(uint32_t n, uint32_t job, uint32_t s, uint32_t d)
{
    uint8_t hops[HCUBE_HOPS_BYTES_MAX], want_hops[HCUBE_HOPS_BYTES_MAX];
    uint32_t networks = 1 + random_below(5), hop_want, want, answer;
    size_t len = ref_label_bytes(n);
    struct net_hop_question hop = fit_net_hop(n, s, d, own[job]);
    struct net_walk_question walk = fit_net_walk(n, networks, s, d, own[job], hops);
    hop.job = walk.job = job;
    hop.labels = walk.labels = both;
    hop_want = ref_hop_networks(n, 5, 0, s, d, 0, 0, own[job], len);
    random_bytes(hops, sizeof hops);
    memcpy(want_hops, hops, sizeof hops);
    want = ref_walk_networks(n, networks, 0, s, d, own[job], len, want_hops,
                             sizeof want_hops);
    expect(check_net_hop(hop) == hop_want, "n = %u, job %u: hop %u to %u not %08x", n,
           job, s, d, hop_want);
    answer = check_net_walk(walk);
    expect(answer == want && !memcmp(hops, want_hops, sizeof hops),
           "n = %u, job %u: walk %u to %u by networks is %08x, not %08x", n, job, s, d,
           answer, want);
    holds_both(n, "networks");
}

/* ---- interleaved */

/* Sets a byte of a job's half, which may then be no label. */
static void set_byte(uint32_t n, uint32_t job, uint32_t k, uint8_t byte)
{
    own[job][k] = both[HCUBE_HALF(n, job) + k] = byte;
}

/* Tables of which none is all of the cube: each job is to have working nodes. */
static void random_shared(uint32_t n)
{
    random_faults(n, random_below(600 / n), faults);
    random_draining(n, faults, draining);
}

/* One call that is refused, for this job or for none; nothing of it is left. */
static void refused_step(uint32_t n, uint32_t job)
{
    struct label_question label = fit_label(n, faults, own[job]);
    struct hop_question hop = fit_hop(n, 0, 1, own[job]);
    label.job = hop.job = job;
    label.labels = both;
    hop.labels = both;
    switch (random_below(4)) {
    case 0: label.job += 2; break;
    case 1: label.labels_len /= 2; break;
    case 2: label.rule = 4; break;
    default: label.closed_len = 0; break;
    }
    expect(HCUBE_REFUSAL(check_label(label)) != 0, "n = %u: not refused", n);
    holds_both(n, "refused labelling");
    if (random_below(2))
        hop.labels_len /= 2;
    else
        hop.job += 256;
    expect(HCUBE_REFUSAL(check_hop(hop)) != 0, "n = %u: not refused", n);
    holds_both(n, "a refused hop");
}

/* One step for either job: its tables, its labels, its half's bytes, its questions,
 * or the shared tables, which show when a job is labelled next. */
static void step(uint32_t n)
{
    uint32_t job = random_below(2), nodes = 1u << n;
    uint32_t s = random_below(nodes + (random_below(16) == 0));
    uint32_t d = random_below(nodes + (random_below(16) == 0));
    switch (random_below(15)) {
    case 0: random_shared(n); return;
    case 1: random_faults(n, random_below(600 / n), shut[job]); return;
    case 2: set_byte(n, job, random_below(nodes), (uint8_t)random_bits()); return;
    case 3: set_byte(n, job, random_below(nodes), (uint8_t)random_below(5)); return;
    case 4: refused_step(n, job); return;
    case 5:
    case 6: label_job(n, 2 + random_below(2), job); return;
    case 7:
    case 8: hop_job(n, job, s, d); return;
    case 9: why_job(n, 2 + random_below(2), job, s); return;
    case 10:
    case 11: net_job(n, job, s, d); return;
    default: walk_job(n, job, s, d); return;
    }
}

static void interleaved(uint32_t n, unsigned steps)
{
    random_shared(n);
    put_anything(both, HCUBE_LABEL_BYTES(n));
    for (uint32_t job = 0; job < 2; job++) {
        random_faults(n, random_below(600 / n), shut[job]);
        memcpy(own[job], both + HCUBE_HALF(n, job), HCUBE_NODES(n));
    }
    while (steps--)
        step(n);
}

/* ---- one after the other */

/* The two jobs in either order over what the buffer held: the same bytes. */
static void either_order(uint32_t n)
{
    static uint8_t first[MOST_LABEL_BYTES];
    uint32_t rule = 2 + random_below(2), answers[2];
    random_shared(n);
    for (uint32_t job = 0; job < 2; job++)
        random_closed(n, faults, draining, shut[job]);
    for (unsigned order = 0; order < 2; order++) {
        put_anything(both, HCUBE_LABEL_BYTES(n));
        for (uint32_t job = 0; job < 2; job++)
            memcpy(own[job], both + HCUBE_HALF(n, job), HCUBE_NODES(n));
        for (uint32_t k = 0; k < 2; k++) {
            uint32_t answer = label_job(n, rule, k ^ order);
            expect(order == 0 || answers[k ^ order] == answer,
                   "n = %u: another answer in another order", n);
            answers[k ^ order] = answer;
        }
        expect(order == 0 || !memcmp(both, first, HCUBE_LABEL_BYTES(n)),
               "n = %u: another buffer in another order", n);
        memcpy(first, both, HCUBE_LABEL_BYTES(n));
    }
}

void check_jobs(void)
{
    begin_group("two jobs, interleaved, as two cabinets");
    for (unsigned k = 0; k < 720; k++)
        interleaved(1 + k % 12, 24);
    end_group();
}

void check_job_orders(void)
{
    begin_group("two jobs labelled in either order");
    for (unsigned k = 0; k < 360; k++)
        either_order(1 + k % 12);
    end_group();
}
