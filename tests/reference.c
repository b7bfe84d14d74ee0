/*
 * reference.c: labelling, hop and walk by docs/RULES.md, in the most direct
 * C: one array of marks for each side of an exchange, every scan a loop over the
 * job's labels themselves.
 */
#include "reference.h"

#include <string.h>

enum { SAFE, ORDINARY, STRONG, FAULTY, DRAINING };

static uint32_t nodes_of(uint32_t n)
{
    return (uint32_t)1 << n;
}

size_t ref_fault_bytes(uint32_t n)
{
    return n <= 3 ? 1 : nodes_of(n) / 8;
}

size_t ref_label_bytes(uint32_t n)
{
    return (size_t)nodes_of(n) + nodes_of(n);
}

static uint32_t packed(uint32_t refusal, uint32_t kind, uint32_t value)
{
    return refusal * 16777216u + kind * 65536u + value;
}

/* ---- labels */

static int has_bit(const uint8_t *table, uint32_t k)
{
    return table[k / 8] >> (k % 8) & 1;
}

/* The label of a node that does not work for the job; 0 if it works. */
static uint8_t out_label(const uint8_t *faults, const uint8_t *draining,
                         const uint8_t *closed, uint32_t k)
{
    if (has_bit(faults, k) || has_bit(closed, k))
        return FAULTY;
    return has_bit(draining, k) ? DRAINING : 0;
}

static int meets_rule(uint32_t n, uint32_t rule, const uint8_t *out,
                      const uint8_t *marked, uint32_t k)
{
    unsigned faulty = 0, unsafe = 0;
    for (uint32_t i = 0; i < n; i++) {
        uint32_t neighbour = k ^ (1u << i);
        if (out[neighbour])
            faulty++;
        else if (marked[neighbour])
            unsafe++;
    }
    return faulty >= 2 || faulty + unsafe >= rule;
}

/* One exchange, which is one round: the marks after it from those before.
 * Whether it brought something new. */
static int exchange(uint32_t n, uint32_t rule, const uint8_t *out,
                    const uint8_t *marked, uint8_t *next)
{
    int something_new = 0;
    for (uint32_t k = 0; k < nodes_of(n); k++) {
        next[k] = marked[k];
        if (out[k] || marked[k])
            continue;
        if (meets_rule(n, rule, out, marked, k)) {
            next[k] = 1;
            something_new = 1;
        }
    }
    return something_new;
}

static int has_safe_neighbour(uint32_t n, const uint8_t *out,
                              const uint8_t *marked, uint32_t k)
{
    for (uint32_t i = 0; i < n; i++) {
        uint32_t neighbour = k ^ (1u << i);
        if (!out[neighbour] && !marked[neighbour])
            return 1;
    }
    return 0;
}

unsigned ref_exchanges(uint32_t n, uint32_t rule, const uint8_t *faults,
                       const uint8_t *draining, const uint8_t *closed,
                       uint8_t *half)
{
    uint8_t out[MOST_NODES], marked[MOST_NODES], next[MOST_NODES];
    unsigned exchanges = 0;
    int something_new;
    for (uint32_t k = 0; k < nodes_of(n); k++)
        out[k] = out_label(faults, draining, closed, k);
    memset(marked, 0, sizeof marked);
    do {
        something_new = exchange(n, rule, out, marked, next);
        exchanges++;
        memcpy(marked, next, nodes_of(n));
    } while (something_new);
    for (uint32_t k = 0; k < nodes_of(n); k++) {
        if (out[k])
            half[k] = out[k];
        else if (!marked[k])
            half[k] = SAFE;
        else if (has_safe_neighbour(n, out, marked, k))
            half[k] = ORDINARY;
        else
            half[k] = STRONG;
    }
    return exchanges;
}

static int has_unused_bit(uint32_t n, const uint8_t *table)
{
    return (n == 1 && table[0] > 3) || (n == 2 && table[0] > 15);
}

uint32_t ref_label(uint32_t n, uint32_t rule, uint32_t job,
                   const uint8_t *faults, size_t faults_len,
                   const uint8_t *draining, size_t draining_len,
                   const uint8_t *closed, size_t closed_len,
                   uint8_t *labels, size_t labels_len)
{
    uint8_t *half = labels;
    if (n < 1 || n > 12)
        return packed(1, 0, 0);
    if (rule != 2 && rule != 3)
        return packed(18, 0, 0);
    if (job != 0 && job != 1)
        return packed(19, 0, 0);
    if (faults_len != ref_fault_bytes(n) || draining_len != ref_fault_bytes(n) ||
        closed_len != ref_fault_bytes(n) || labels_len != ref_label_bytes(n))
        return packed(2, 0, 0);
    if (has_unused_bit(n, faults) || has_unused_bit(n, draining) ||
        has_unused_bit(n, closed))
        return packed(3, 0, 0);
    if (job == 1)
        half += nodes_of(n);
    return packed(0, 0, ref_exchanges(n, rule, faults, draining, closed, half));
}

/* ---- one hop */

unsigned ref_distance(uint32_t n, uint32_t c, uint32_t d)
{
    unsigned differing = 0;
    for (uint32_t i = 0; i < n; i++)
        if ((c >> i & 1) != (d >> i & 1))
            differing++;
    return differing;
}

static int scan_takes(unsigned scan, int forward, uint8_t neighbour,
                      uint8_t own, unsigned l)
{
    int works = neighbour != FAULTY && neighbour != DRAINING;
    switch (scan) {
    case 0: return forward && neighbour == DRAINING && l == 1;
    case 1: return forward && neighbour == SAFE;
    case 2: return forward && (neighbour == SAFE || neighbour == ORDINARY);
    case 3: return forward && works && (own == STRONG || l <= 2);
    case 4: return !forward && neighbour == SAFE;
    default: return !forward && (neighbour == SAFE || neighbour == ORDINARY);
    }
}

unsigned ref_scan(uint32_t n, uint32_t c, uint32_t d, const uint8_t *half,
                  uint32_t *dimension)
{
    unsigned l = ref_distance(n, c, d);
    if (l == 0)
        return NO_SCAN;
    for (unsigned scan = 0; scan <= 5; scan++)
        for (uint32_t i = 0; i < n; i++) {
            int forward = (c >> i & 1) != (d >> i & 1);
            if (scan_takes(scan, forward, half[c ^ (1u << i)], half[c], l)) {
                *dimension = i;
                return scan;
            }
        }
    return NO_SCAN;
}

uint32_t ref_hop(uint32_t n, uint32_t job, uint32_t c, uint32_t d,
                 const uint8_t *labels, size_t labels_len)
{
    const uint8_t *half = labels;
    uint32_t dimension = 0;
    if (n < 1 || n > 12)
        return packed(1, 0, 0);
    if (job != 0 && job != 1)
        return packed(19, 0, 0);
    if (labels_len != ref_label_bytes(n))
        return packed(2, 0, 0);
    if (c >= nodes_of(n) || d >= nodes_of(n))
        return packed(5, 0, 0);
    if (job == 1)
        half += nodes_of(n);
    if (half[c] > LAST_LABEL)
        return packed(4, 0, 0);
    for (uint32_t i = 0; i < n; i++)
        if (half[c ^ (1u << i)] > LAST_LABEL)
            return packed(4, 0, 0);
    if (half[c] == FAULTY || (half[c] == DRAINING && c != d))
        return packed(6, 0, 0);
    if (c == d)
        return packed(0, 0, 0);
    if (ref_scan(n, c, d, half, &dimension) == NO_SCAN)
        return packed(0, 2, 0);
    return packed(0, 1, dimension);
}

/* ---- walk */

/* Walks by good labels. Places and count to the caller; the kind, or 8. */
static unsigned walk_good(uint32_t n, uint32_t s, uint32_t d,
                          const uint8_t *half, uint32_t *places,
                          unsigned *hops)
{
    uint32_t current = s, dimension = 0;
    *hops = 0;
    places[0] = s;
    while (current != d) {
        if (ref_scan(n, current, d, half, &dimension) == NO_SCAN)
            return 1;
        if (*hops == n + 4)
            return 8;
        current ^= 1u << dimension;
        *hops += 1;
        places[*hops] = current;
    }
    return 0;
}

uint32_t ref_walk(uint32_t n, uint32_t job, uint32_t s, uint32_t d,
                  const uint8_t *labels, size_t labels_len,
                  uint8_t *row, size_t row_len)
{
    const uint8_t *half = labels;
    uint32_t places[ROW_PLACES] = {0};
    unsigned hops, ending;
    if (n < 1 || n > 12)
        return packed(1, 0, 0);
    if (job != 0 && job != 1)
        return packed(19, 0, 0);
    if (labels_len != ref_label_bytes(n) || row_len != ROW_BYTES)
        return packed(2, 0, 0);
    if (s >= nodes_of(n) || d >= nodes_of(n))
        return packed(5, 0, 0);
    if (job == 1)
        half += nodes_of(n);
    for (uint32_t k = 0; k < nodes_of(n); k++)
        if (half[k] > LAST_LABEL)
            return packed(4, 0, 0);
    if (half[s] == FAULTY || half[s] == DRAINING)
        return packed(6, 0, 0);
    if (half[d] == FAULTY)
        return packed(7, 0, 0);
    ending = walk_good(n, s, d, half, places, &hops);
    if (ending == 8)
        return packed(8, 0, 0);
    for (unsigned k = 0; k < ROW_PLACES; k++) {
        row[2 * k] = (uint8_t)(places[k] % 256);
        row[2 * k + 1] = (uint8_t)(places[k] / 256);
    }
    return packed(0, ending, hops);
}
