/*
 * tables.c: library against reference over fault and draining tables and over
 * label tables, all of them in small cubes and random ones up to dimension 12,
 * which have closed nodes too. All closed tables of small cubes are in jobs.c.
 */
#include <string.h>

#include "cabinet.h"
#include "cases.h"
#include "check.h"
#include "groups.h"

#define RANDOM_TABLES 24000
#define RANDOM_LABEL_TABLES 12000

/* Puts the label table of this number; 0 if there are not so many. */
static int put_labels(uint32_t n, unsigned number)
{
    for (uint32_t k = 0; k < 1u << n; k++, number /= LAST_LABEL + 1)
        labels[k] = (uint8_t)(number % (LAST_LABEL + 1));
    return number == 0;
}

/* Labels by both rules, and all pairs by each label table once: a node that is in
 * both tables has the label of one that is in the fault table alone, and the two
 * rules' labels may be the same. */
static void small_cabinet(uint32_t n, unsigned pair)
{
    uint8_t by_2[8];
    int wanted;
    faults[0] = (uint8_t)pair;
    draining[0] = (uint8_t)(pair >> 8);
    wanted = HCUBE_REFUSAL(label_cabinet(n, 2)) == 0 &&
             !(faults[0] & draining[0]);
    if (wanted)
        all_pairs(n);
    memcpy(by_2, labels, sizeof by_2);
    label_cabinet(n, 3);
    if (wanted && memcmp(by_2, labels, (size_t)1 << n))
        all_pairs(n);
}

/* Every fault table with every draining table up to n = 3 with every pair, and
 * every byte that is none since an unused bit is set. */
void check_small_cubes(void)
{
    begin_group("all pairs of tables to n = 3, both rules, all pairs");
    memset(closed, 0, sizeof closed);
    for (uint32_t n = 1; n <= 3; n++)
        for (unsigned pair = 0; pair < 65536; pair++)
            small_cabinet(n, pair);
    end_group();
}

/* Every label table up to n = 2 with every pair. */
void check_small_labels(void)
{
    begin_group("all label tables to n = 2, all pairs");
    for (uint32_t n = 1; n <= 2; n++)
        for (unsigned number = 0; put_labels(n, number); number++)
            all_pairs(n);
    end_group();
}

/* A walk that the old labels delivered is delivered by the new; where the old ones
 * have a safe node they deliver it, in the distance and two hops at most. */
static void two_walks(uint32_t n, uint32_t s, uint32_t d, const uint8_t *old,
                      int some_safe)
{
    uint8_t row[ROW_BYTES];
    uint32_t before = walk_by(old, n, s, d, row);
    uint32_t after = walk_by(labels, n, s, d, row);
    if (old[s] >= HCUBE_FAULTY || old[d] == HCUBE_FAULTY)
        return;
    expect(before >> 16 || !(after >> 16), "n = %u: walk %u to %u is lost", n, s,
           d);
    expect(!some_safe || before <= ref_distance(n, s, d) + 2,
           "n = %u: walk %u to %u takes %08x", n, s, d, before);
}

/* From rule 2 to rule 3 no label grows; by rule 2, where some node is safe none is
 * strongly unsafe. */
static void moved(uint32_t n)
{
    static uint8_t old[MOST_NODES];
    unsigned grown = 0, safe = 0, strong = 0;
    label_cabinet(n, 2);
    memcpy(old, labels, (size_t)1 << n);
    label_cabinet(n, 3);
    for (uint32_t k = 0; k < 1u << n; k++) {
        grown += labels[k] > old[k];
        safe += old[k] == HCUBE_SAFE;
        strong += old[k] == HCUBE_STRONG;
    }
    expect(grown == 0, "n = %u: %u labels grow", n, grown);
    expect(safe == 0 || strong == 0, "n = %u: %u safe, %u strongly unsafe", n,
           safe, strong);
    for (unsigned k = 0; k < 8; k++)
        two_walks(n, random_below(1u << n), random_below(1u << n), old,
                  safe != 0);
}

void check_moved(void)
{
    begin_group("3,600 cabinets labelled by rule 2 and by rule 3");
    for (unsigned k = 0; k < 3600; k++) {
        uint32_t n = 1 + k % 12;
        random_cabinet(n, random_density(n) / (1 + k / 12 % 3));
        moved(n);
    }
    end_group();
}

void check_random_tables(void)
{
    begin_group("24,000 random cabinets to n = 12, by rules 2 and 3");
    for (unsigned k = 0; k < RANDOM_TABLES; k++) {
        uint32_t n = 1 + k % 12;
        random_cabinet(n, random_density(n));
        label_cabinet(n, 2 + k / 12 % 2);
        some_pairs(n, 8);
    }
    end_group();
}

void check_random_labels(void)
{
    begin_group("12,000 random label tables to n = 12");
    for (unsigned k = 0; k < RANDOM_LABEL_TABLES; k++) {
        uint32_t n = 1 + k % 12;
        mixed_labels(n);
        some_pairs(n, n <= 4 ? 40 : 12);
    }
    end_group();
}

/* A hop goes by c's label and its neighbours' alone, whatever else is there. */
void check_hop_reads(void)
{
    static uint8_t other[MOST_NODES];
    begin_group("hop by n + 1 labels");
    for (unsigned k = 0; k < 6000; k++) {
        uint32_t n = 1 + k % 12, c = random_below(1u << n);
        uint32_t d = random_below(1u << n), answer;
        random_labels(n, LAST_LABEL + (random_below(10) == 0), labels);
        answer = check_hop(fit_hop(n, c, d, labels));
        random_bytes(other, (size_t)1 << n);
        other[c] = labels[c];
        for (uint32_t i = 0; i < n; i++)
            other[c ^ 1u << i] = labels[c ^ 1u << i];
        expect(check_hop(fit_hop(n, c, d, other)) == answer,
               "n = %u, at %u for %u: by another byte", n, c, d);
    }
    end_group();
}

/* What the job's half held before does not show. */
void check_label_buffer(void)
{
    static uint8_t first[MOST_NODES];
    begin_group("labels whatever the half held");
    for (unsigned k = 0; k < 600; k++) {
        uint32_t n = 1 + k % 12, rule = 2 + k / 12 % 2, answer;
        random_cabinet(n, random_density(n));
        answer = label_cabinet(n, rule);
        memcpy(first, labels, (size_t)1 << n);
        for (unsigned fill = 0; fill <= 6; fill++) {
            struct label_question asked;
            memset(labels, fill < 6 ? (int)fill : 255, sizeof labels);
            asked = fit_label(n, faults, labels);
            asked.rule = rule;
            asked.draining = draining;
            asked.closed = closed;
            expect(check_label(asked) == answer,
                   "n = %u: another answer over %u", n, fill);
            keep_half(asked, labels);
            expect(!memcmp(labels, first, (size_t)1 << n),
                   "n = %u: other labels over %u", n, fill);
        }
    }
    end_group();
}
