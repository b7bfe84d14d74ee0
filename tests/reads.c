/*
 * reads.c: which labels the archive reads, watched while its machine code runs,
 * against RULES. Labels: the test of a node reads its neighbours' labels one by
 * one, lowest dimension first, and no more of them than settle it. Which nodes work:
 * a call for one job reads and writes no byte of the other's half.
 * Here all that is expected is worked out anew from the three tables.
 *
 *   reads [MOST]    checks up to dimension MOST, or 12; prints `ok ..` and `FAIL ..`
 *   reads N JOB     checks this dimension and job alone, as among all
 *   reads table     how many labels were read, for docs/PERFORMANCE.md
 *
 * Behind FAIL stands a line `replay: ..`, if the environment has the first words of
 * it in REPLAY.
 */
#include <stdio.h>
#include <stdlib.h>
#include <string.h>

#include "../include/hcube.h"
#include "cases.h"
#include "noted.h"
#include "reads.h"
#include "watch.h"

uint32_t n, job;
static uint32_t rule;
static uint8_t faults[512], draining[512], closed[512];

/* ---- the rounds, by the tables: 1 where a node does not work, has a mark */

static uint8_t out[4096], marked[4096], next_marked[4096];

/* The first so many neighbours of x settle that it meets the rule. */
static int settled(uint32_t x, uint32_t so_many)
{
    unsigned faulty = 0, bad = 0;
    for (uint32_t i = 0; i < so_many; i++) {
        faulty += out[x ^ 1u << i];
        bad += out[x ^ 1u << i] || marked[x ^ 1u << i];
    }
    return faulty >= 2 || bad >= rule;
}

/* How many neighbours the test looks at: the least number that settles it. */
static uint32_t looked(uint32_t x)
{
    uint32_t least = 0;
    while (least < n && !settled(x, least))
        least++;
    return least;
}

/* The first dimension across which x has a safe neighbour; else n. */
static uint32_t first_safe(uint32_t x)
{
    uint32_t i = 0;
    while (i < n && (out[x ^ 1u << i] || marked[x ^ 1u << i]))
        i++;
    return i;
}

/* What the test read before A6: it counted the bad neighbours, all of them, and
 * where two were bad it counted once more. */
static uint32_t read_before(uint32_t x)
{
    unsigned bad = 0;
    for (uint32_t i = 0; i < n; i++)
        bad += out[x ^ 1u << i] || marked[x ^ 1u << i];
    return bad == 2 ? 2 * n : n;
}

/* ---- what was noted, held against it */

static unsigned exchanges;
/* tests of the rule in the sweeps, and the reads that were noted in them, that
 * the definition gives, and that were made before A6 */
static unsigned long tests, reads, defined, reads_before;

/* One sweep: each node's own label, and where it is plain the test of the rule.
 * Whether it marked something. */
static int expect_sweep(void)
{
    int something_new = 0;
    memcpy(next_marked, marked, sizeof marked);
    for (uint32_t x = 0; x < HCUBE_NODES(n); x++) {
        size_t from;
        expect_access(0, x, "a node of a sweep");
        if (out[x] || marked[x])
            continue;
        from = at;
        expect_neighbours(x, looked(x), "the test of the rule");
        tests++;
        reads += at - from;
        defined += looked(x);
        reads_before += read_before(x);
        if (settled(x, n)) {
            expect_access(1, x, "a mark");
            next_marked[x] = something_new = 1;
        }
    }
    memcpy(marked, next_marked, sizeof marked);
    exchanges++;
    return something_new;
}

/* The last pass: each node's own label, of an unsafe one the neighbours up to the
 * first safe one, and the label of each that is unsafe or does not work. */
static void expect_finish(void)
{
    for (uint32_t x = 0; x < HCUBE_NODES(n); x++) {
        uint32_t safe = first_safe(x);
        expect_access(0, x, "a node of the last pass");
        if (!out[x] && !marked[x])
            continue;
        if (!out[x])
            expect_neighbours(x, safe < n ? safe + 1 : n,
                              "the test for a safe neighbour");
        expect_access(1, x, "a label of the last pass");
    }
}

/* Labels the tables at hand under watch, for the job, into a half and beside one
 * that hold anything. */
static void expect_labelling(void)
{
    uint8_t *labels = watched_buffer(HCUBE_NODES(n));
    size_t bytes = HCUBE_FAULT_BYTES(n);
    exchanges = 0;
    tests = reads = defined = reads_before = 0;
    for (uint32_t x = 0; x < HCUBE_NODES(n); x++)
        out[x] = in_table(faults, x) || in_table(draining, x) ||
                 in_table(closed, x);
    memset(marked, 0, sizeof marked);
    random_bytes(labels, HCUBE_LABEL_BYTES(n));
    watch_begin();
    hcube_label(n, rule, job, faults, bytes, draining, bytes, closed, bytes,
                labels, HCUBE_LABEL_BYTES(n));
    watch_end();
    expect_from_start(n, job);
    expect_writes(); /* the table before the first round */
    while (expect_sweep())
        expect_pass(); /* which ends the round */
    expect_finish();
    expect_end();
}

/* ---- the tables, by their faulty nodes per mille */

static const unsigned densities[] = {0, 3, 10, 62, 250, 500, 1000};
static const unsigned printed[] = {0, 10, 62, 250, 500};
static int failed;

void result(const char *what, unsigned cases)
{
    const char *replay = getenv("REPLAY");
    if (*wrong)
        printf("FAIL reads of %s, n = %u, job %u: %s\n", what, n, job, wrong);
    else
        printf("ok reads of %s, n = %u, job %u: %u cases\n", what, n, job, cases);
    if (*wrong && replay)
        printf("    replay: %s:%u:%u\n", replay, n, job);
    failed |= *wrong != 0;
}

/* Three tables of each density, or one where the cube is large; the rules in turn. */
static void check_labelling(void)
{
    unsigned cases = 0, tables = n <= 8 ? 3 : 1;
    *wrong = 0;
    for (unsigned k = 0; k < tables * COUNT(densities) && !*wrong; k++) {
        random_faults(n, densities[k % COUNT(densities)], faults);
        random_draining(n, faults, draining);
        random_closed(n, faults, draining, closed);
        rule = 2 + (k + n + job) % 2;
        expect_labelling();
        cases++;
    }
    result("labelling", cases);
}

static void print_row(unsigned per_mille)
{
    unsigned count = 0;
    rule = HCUBE_RULE_CHIU_WU;
    random_faults(n, per_mille, faults);
    expect_labelling();
    if (*wrong) {
        printf("n = %u: %s\n", n, wrong);
        failed = 1;
        return;
    }
    for (uint32_t x = 0; x < HCUBE_NODES(n); x++)
        count += out[x];
    printf("%2u %6u %9u %9lu %8.2f %10.2f %9.2f\n", n, count, exchanges, tests,
           (double)reads / (double)tests, (double)defined / (double)tests,
           (double)reads_before / (double)tests);
}

static void print_table(void)
{
    random_seed(6);
    printf(" n faults exchanges     tests  watched  definition  before A6\n");
    for (n = 4; n <= 12; n += 4)
        for (unsigned k = 0; k < COUNT(printed); k++)
            print_row(printed[k]);
}

/* By random numbers of its own, so that it can be done alone. */
static void check_cube(uint32_t dimension, uint32_t number)
{
    n = dimension;
    job = number;
    random_seed(2 * n + job);
    check_labelling();
    check_hops();
    check_walks();
    check_why_labels();
    check_why_hops();
    check_net_hops();
    check_net_walks();
    check_refused();
}

int main(int count, char **words)
{
    uint32_t most = count > 1 ? (uint32_t)atoi(words[1]) : 12;
    uint32_t number = count > 2 ? (uint32_t)atoi(words[2]) : 0;
    if (count == 2 && !strcmp(words[1], "table")) {
        print_table();
        return failed;
    }
    if (most < 1 || most > 12 || number > 1 || count > 3) {
        fprintf(stderr, "usage: reads [MOST], reads N JOB, or reads table\n");
        return 2;
    }
    if (count == 3)
        check_cube(most, number);
    else
        for (uint32_t k = 0; k < 2 * most; k++)
            check_cube(1 + k / 2, k % 2);
    return failed;
}
