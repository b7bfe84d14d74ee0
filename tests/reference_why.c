/*
 * reference_why.c: why a node has its label and why a hop is taken, by
 * docs/RULES.md, in the most direct C: each node has the round that marked it,
 * and a cause is looked up in these rounds.
 */
#include "reference.h"

#include <string.h>

enum { SAFE, ORDINARY, STRONG, FAULTY, DRAINING };
enum { NO_CAUSE, TWO_FAULTY, FAULTY_OR_MARKED };

#define REFUSED(refusal) ((refusal) * 16777216u)

/* ---- the rounds */

static int in(const uint8_t *table, uint32_t k)
{
    return table[k / 8] >> (k % 8) & 1;
}

/* How many neighbours do not work or were marked in an earlier round than this.
 * Before round 1 none was marked. */
static unsigned count_bad(uint32_t n, const struct ref_marks *marks, uint32_t k,
                          unsigned round)
{
    unsigned count = 0;
    for (uint32_t i = 0; i < n; i++)
        count += marks->round[k ^ (1u << i)] < round;
    return count;
}

/* It meets the rule in this round: with the marks of earlier ones. */
static int meets(uint32_t n, uint32_t rule, const struct ref_marks *marks,
                 uint32_t k, unsigned round)
{
    return count_bad(n, marks, k, round) >= rule ||
           count_bad(n, marks, k, 1) >= 2;
}

/* Marks each working node without a mark that meets the rule; whether there is
 * one. */
static int one_round(uint32_t n, uint32_t rule, unsigned round,
                     struct ref_marks *marks)
{
    int something_new = 0;
    for (uint32_t k = 0; k < 1u << n; k++)
        if (marks->round[k] == NOT_MARKED && meets(n, rule, marks, k, round)) {
            marks->round[k] = (uint16_t)round;
            something_new = 1;
        }
    return something_new;
}

void ref_rounds(uint32_t n, uint32_t rule, const uint8_t *faults,
                const uint8_t *draining, const uint8_t *closed,
                struct ref_marks *marks)
{
    unsigned round = 1;
    for (uint32_t k = 0; k < 1u << n; k++) {
        marks->label[k] = in(faults, k) || in(closed, k) ? FAULTY
                          : in(draining, k)              ? DRAINING
                                                         : SAFE;
        marks->round[k] = marks->label[k] == SAFE ? NOT_MARKED : 0;
    }
    while (one_round(n, rule, round, marks))
        round++;
    for (uint32_t k = 0; k < 1u << n; k++)
        if (marks->round[k] != 0 && marks->round[k] != NOT_MARKED)
            marks->label[k] =
                count_bad(n, marks, k, NOT_MARKED) < n ? ORDINARY : STRONG;
}

/* ---- why a node has its label */

static uint64_t packed(uint64_t cause, uint64_t named, uint64_t label,
                       uint64_t round)
{
    return (cause << 56) + (named << 32) + label * 65536u + round;
}

/* The dimensions of the first so many of these neighbours, a byte each, the
 * lowest one in the lowest byte. */
static uint64_t lowest(uint32_t n, const struct ref_marks *marks, uint32_t x,
                       unsigned round, unsigned count)
{
    uint64_t named = 0;
    unsigned place = 0;
    for (uint32_t i = 0; i < n && place < count; i++)
        if (marks->round[x ^ (1u << i)] < round)
            named += (uint64_t)i << 8 * place++;
    return named;
}

uint64_t ref_why(uint32_t n, uint32_t rule, const struct ref_marks *marks,
                 uint32_t x)
{
    unsigned faulty = count_bad(n, marks, x, 1);
    unsigned not_safe = count_bad(n, marks, x, NOT_MARKED);
    unsigned label = marks->label[x], round = marks->round[x];
    if (label == FAULTY || label == DRAINING)
        return packed(NO_CAUSE, 0, label, 0);
    if (label == SAFE)
        return packed(NO_CAUSE, faulty + 256 * not_safe, label, 0);
    if (faulty >= 2)
        return packed(TWO_FAULTY, lowest(n, marks, x, 1, 2), label, round);
    return packed(FAULTY_OR_MARKED, lowest(n, marks, x, round, rule), label,
                  round);
}

static int is_length(uint32_t n, size_t faults_len, size_t draining_len,
                     size_t closed_len, size_t labels_len)
{
    size_t len = ref_fault_bytes(n);
    return faults_len == len && draining_len == len && closed_len == len &&
           labels_len == ref_label_bytes(n);
}

/* A bit of the byte that is for no node; in larger cubes there is none. */
static int is_unused(uint32_t n, uint8_t byte)
{
    return n < 3 && byte >> (1u << n);
}

uint64_t ref_why_node(uint32_t n, uint32_t rule, uint32_t job, uint32_t x,
                      const uint8_t *faults, size_t faults_len,
                      const uint8_t *draining, size_t draining_len,
                      const uint8_t *closed, size_t closed_len,
                      uint8_t *labels, size_t labels_len)
{
    static struct ref_marks marks;
    if (n < 1 || n > 12)
        return REFUSED(1);
    if (rule != 2 && rule != 3)
        return REFUSED(18);
    if (job != 0 && job != 1)
        return REFUSED(19);
    if (!is_length(n, faults_len, draining_len, closed_len, labels_len))
        return REFUSED(2);
    if (is_unused(n, faults[0] | draining[0] | closed[0]))
        return REFUSED(3);
    if (x >= 1u << n)
        return REFUSED(5);
    ref_rounds(n, rule, faults, draining, closed, &marks);
    memcpy(job == 1 ? labels + (1u << n) : labels, marks.label, 1u << n);
    return ref_why(n, rule, &marks, x);
}

/* ---- why a hop is taken */

uint32_t ref_why_hop(uint32_t n, uint32_t job, uint32_t c, uint32_t d,
                     const uint8_t *labels, size_t labels_len)
{
    uint32_t answer = ref_hop(n, job, c, d, labels, labels_len);
    uint32_t scan, dimension = 0;
    if (answer / 65536u != 1) /* refused, delivered or halted */
        return answer;
    if (job == 1)
        labels += 1u << n;
    scan = ref_scan(n, c, d, labels, &dimension);
    return 65536u + scan * 256 + dimension;
}
