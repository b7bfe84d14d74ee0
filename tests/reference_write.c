/*
 * reference_write.c: the notice of a fault table, by docs/RULES.md, in the most
 * direct C: first the faulty nodes, then the numbers, then their groups, and only
 * then the buffer.
 */
#include "reference.h"

#include <string.h>

#define MOST_NUMBERS (2 + MOST_NODES)

/* Dimension and count have three bytes at most. A number of two groups stands for
 * at least 128 nodes, so all addresses have as many bytes as there are nodes. */
#define MOST_NOTICE (3 + MOST_NODES)

/* The faulty nodes, in rising order; how many. */
static uint32_t list_nodes(uint32_t n, const uint8_t *faults, uint32_t *nodes)
{
    uint32_t count = 0;
    for (uint32_t k = 0; k < (uint32_t)1 << n; k++)
        if (faults[k / 8] / (1u << (k % 8)) % 2 == 1)
            nodes[count++] = k;
    return count;
}

/* The row of numbers; how many. */
static uint32_t list_numbers(uint32_t n, const uint32_t *nodes, uint32_t count,
                             uint32_t *numbers)
{
    numbers[0] = n;
    numbers[1] = count;
    if (count > 0)
        numbers[2] = nodes[0];
    for (uint32_t k = 1; k < count; k++)
        numbers[2 + k] = nodes[k] - nodes[k - 1] - 1;
    return 2 + count;
}

/* Groups of seven bits, the lowest first; how many. */
static size_t list_groups(uint32_t number, uint8_t *groups)
{
    size_t count = 0;
    for (; number >= 128; number /= 128)
        groups[count++] = (uint8_t)(128 + number % 128);
    groups[count++] = (uint8_t)number;
    return count;
}

/* A node of 2^n or more has a bit: there are such bits for n of 1 and 2. */
static int has_unused_bit(uint32_t n, const uint8_t *faults)
{
    for (uint32_t k = (uint32_t)1 << n; k < 8; k++)
        if (faults[0] / (1u << k) % 2 == 1)
            return 1;
    return 0;
}

static uint32_t refused(uint32_t refusal)
{
    return refusal * 16777216u;
}

uint32_t ref_write_notice(uint32_t n, const uint8_t *faults, size_t faults_len,
                          uint8_t *out, size_t out_len)
{
    static uint32_t nodes[MOST_NODES], numbers[MOST_NUMBERS];
    static uint8_t notice[MOST_NOTICE];
    uint32_t count;
    size_t len = 0;
    if (n < 1 || n > 12)
        return refused(1);
    if (faults_len != ref_fault_bytes(n))
        return refused(2);
    if (has_unused_bit(n, faults))
        return refused(3);
    count = list_numbers(n, nodes, list_nodes(n, faults, nodes), numbers);
    for (uint32_t k = 0; k < count; k++)
        len += list_groups(numbers[k], notice + len);
    if (len > out_len)
        return refused(13);
    memcpy(out, notice, len);
    return (uint32_t)len;
}
