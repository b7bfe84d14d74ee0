/* check.c: the library's answers and bytes against the reference's. */
#include "check.h"

#include <string.h>

#include "cases.h"
#include "lent.h"

static struct lent read_only, draining, closed, writable;
static uint8_t wanted[MOST_LENT];

/* The same question with guarded buffers. */
static struct label_question lend_tables(struct label_question asked)
{
    struct label_question lent = asked;
    lend(&read_only, asked.faults, asked.faults_len);
    lend(&draining, asked.draining, asked.draining_len);
    lend(&closed, asked.closed, asked.closed_len);
    lend(&writable, asked.labels, asked.labels_len);
    lent.faults = read_only.bytes;
    lent.draining = draining.bytes;
    lent.closed = closed.bytes;
    lent.labels = writable.bytes;
    return lent;
}

/* The tables are as they were, and the label buffer is as wanted. */
static int tables_are(struct label_question asked)
{
    return lent_is(&read_only, asked.faults) &&
           lent_is(&draining, asked.draining) &&
           lent_is(&closed, asked.closed) && lent_is(&writable, wanted);
}

uint32_t check_label(struct label_question asked)
{
    struct label_question lent = lend_tables(asked);
    uint32_t answer, want;
    memcpy(wanted, asked.labels, asked.labels_len);
    want = ref_label(asked.n, asked.rule, asked.job, asked.faults,
                     asked.faults_len, asked.draining, asked.draining_len,
                     asked.closed, asked.closed_len, wanted, asked.labels_len);
    answer = ask_label(lent);
    expect(answer == want, "label n=%u by %u, job %u: %08x, not %08x", asked.n,
           asked.rule, asked.job, answer, want);
    expect(tables_are(asked), "label n=%u by %u, job %u (%08x): wrong bytes",
           asked.n, asked.rule, asked.job, want);
    saw_label(asked, want, wanted);
    memcpy(asked.labels, writable.bytes, asked.labels_len);
    return answer;
}

uint64_t check_why_node(struct label_question asked, uint32_t x)
{
    struct label_question lent = lend_tables(asked);
    uint64_t answer, want;
    memcpy(wanted, asked.labels, asked.labels_len);
    want = ref_why_node(asked.n, asked.rule, asked.job, x, asked.faults,
                        asked.faults_len, asked.draining, asked.draining_len,
                        asked.closed, asked.closed_len, wanted,
                        asked.labels_len);
    answer = ask_why_node(lent, x);
    expect(answer == want,
           "why n=%u by %u, job %u, node %u: %016llx, not %016llx", asked.n,
           asked.rule, asked.job, x, (unsigned long long)answer,
           (unsigned long long)want);
    expect(tables_are(asked), "why n=%u by %u, job %u, node %u: wrong bytes",
           asked.n, asked.rule, asked.job, x);
    saw_why_node(asked, want);
    memcpy(asked.labels, writable.bytes, asked.labels_len);
    return answer;
}

static struct hop_question lend_labels(struct hop_question asked)
{
    struct hop_question lent = asked;
    lend(&read_only, asked.labels, asked.labels_len);
    lent.labels = read_only.bytes;
    return lent;
}

static uint32_t why_by(struct hop_question asked, struct hop_question lent)
{
    uint32_t want = ref_why_hop(asked.n, asked.job, asked.c, asked.d,
                                asked.labels, asked.labels_len);
    uint32_t answer = ask_why_hop(lent);
    expect(answer == want, "why hop n=%u, job %u, %u to %u: %08x, not %08x",
           asked.n, asked.job, asked.c, asked.d, answer, want);
    saw_why_hop(asked, want);
    return answer;
}

uint32_t check_why_hop(struct hop_question asked)
{
    uint32_t answer = why_by(asked, lend_labels(asked));
    expect(lent_is(&read_only, asked.labels),
           "why hop n=%u, job %u: a byte changed", asked.n, asked.job);
    return answer;
}

/* Without the scan, why a hop is taken is what the hop answers. */
static uint32_t without_scan(uint32_t why)
{
    return why >> 16 == HCUBE_HOP ? (why & ~0xff00u) : why;
}

uint32_t check_hop(struct hop_question asked)
{
    struct hop_question lent = lend_labels(asked);
    uint32_t answer, want, why = why_by(asked, lent);
    want = ref_hop(asked.n, asked.job, asked.c, asked.d, asked.labels,
                   asked.labels_len);
    answer = ask_hop(lent);
    expect(answer == want, "hop n=%u, job %u, %u to %u: %08x, not %08x", asked.n,
           asked.job, asked.c, asked.d, answer, want);
    expect(lent_is(&read_only, asked.labels), "hop n=%u, job %u: a byte changed",
           asked.n, asked.job);
    expect(answer == without_scan(why),
           "hop n=%u, job %u, %u to %u: %08x, but why it is taken %08x",
           asked.n, asked.job, asked.c, asked.d, answer, why);
    saw_hop(asked, want);
    return answer;
}

/* Whatever the labels, and whatever the reference says: a walk goes from neighbour
 * to neighbour, no node before its last is faulty or draining, and no node stands
 * in its row twice. */
static void check_way(struct walk_question asked, uint32_t answer)
{
    uint32_t hops = HCUBE_VALUE(answer), here = asked.s;
    const uint8_t *half;
    int passes = 1;
    if (HCUBE_REFUSAL(answer) || hops >= ROW_PLACES || asked.job >= NO_JOB)
        return;
    half = asked.labels + HCUBE_HALF(asked.n, asked.job);
    for (uint32_t k = 0; k <= hops; k++) {
        uint32_t next = row_place(asked.row, k);
        passes &= next < 1u << asked.n &&
                  ref_distance(asked.n, here, next) == (k > 0) &&
                  (k == hops || half[next] < HCUBE_FAULTY);
        for (uint32_t before = 0; before < k; before++)
            passes &= row_place(asked.row, before) != next;
        here = next;
    }
    expect(passes, "walk n=%u %u to %u: no way", asked.n, asked.s, asked.d);
}

uint32_t check_walk(struct walk_question asked)
{
    struct walk_question lent = asked;
    uint32_t answer, want;
    int same;
    lend(&read_only, asked.labels, asked.labels_len);
    lend(&writable, asked.row, asked.row_len);
    lent.labels = read_only.bytes;
    lent.row = writable.bytes;
    memcpy(wanted, asked.row, asked.row_len);
    want = ref_walk(asked.n, asked.job, asked.s, asked.d, asked.labels,
                    asked.labels_len, wanted, asked.row_len);
    answer = ask_walk(lent);
    expect(answer == want, "walk n=%u, job %u, %u to %u: %08x, not %08x",
           asked.n, asked.job, asked.s, asked.d, answer, want);
    same = lent_is(&read_only, asked.labels) && lent_is(&writable, wanted);
    expect(same, "walk n=%u, job %u, %u to %u (%08x): wrong bytes", asked.n,
           asked.job, asked.s, asked.d, want);
    saw_walk(asked, want);
    memcpy(asked.row, writable.bytes, asked.row_len);
    check_way(asked, answer);
    return answer;
}
