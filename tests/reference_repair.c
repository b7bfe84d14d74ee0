/*
 * reference_repair.c: asking the neighbours, by docs/RULES.md, in the most direct C.
 * Each node in turn asks its own neighbours whether they name it, and keeps the
 * lowest of those that do.
 */
#include "reference.h"

#include <string.h>

static uint32_t refused(uint32_t refusal)
{
    return refusal * 16777216u;
}

static int is_faulty(const uint8_t *table, uint32_t k)
{
    return table[k / 8] / (1u << (k % 8)) % 2 == 1;
}

static int has_bit(uint16_t number, uint32_t i)
{
    return number / (1u << i) % 2 == 1;
}

/* The lowest working node that names k; the number of nodes where none does. */
static uint32_t lowest_namer(uint32_t n, const uint8_t *faults,
                             const uint16_t *masks, uint32_t k)
{
    uint32_t lowest = (uint32_t)1 << n;
    for (uint32_t i = 0; i < n; i++) {
        uint32_t w = has_bit((uint16_t)k, i) ? k - (1u << i) : k + (1u << i);
        if (!is_faulty(faults, w) && has_bit(masks[w], i) && w < lowest)
            lowest = w;
    }
    return lowest;
}

/* Some mask is 2^n or more. */
static int some_stray(uint32_t n, const uint16_t *masks, size_t count)
{
    for (size_t w = 0; w < count; w++)
        if (masks[w] >= (uint32_t)1 << n)
            return 1;
    return 0;
}

uint32_t ref_repair(uint32_t n, const uint8_t *faults, size_t faults_len,
                    const uint16_t *masks, size_t masks_len,
                    uint8_t *result, size_t result_len,
                    uint16_t *row, size_t row_len)
{
    uint32_t nodes;
    if (n < 1 || n > 12)
        return refused(1);
    nodes = (uint32_t)1 << n;
    if (faults_len != ref_fault_bytes(n) || masks_len != nodes ||
        result_len != ref_fault_bytes(n) || row_len != nodes)
        return refused(2);
    if (n < 3 && faults[0] >= 1u << (1u << n))
        return refused(3);
    if (some_stray(n, masks, masks_len))
        return refused(17);
    memset(result, 0, result_len);
    for (uint32_t k = 0; k < nodes; k++) {
        uint32_t namer = lowest_namer(n, faults, masks, k);
        int old = is_faulty(faults, k), is_named = namer < nodes;
        if (old || is_named)
            result[k / 8] |= (uint8_t)(1u << (k % 8));
        row[k] = (uint16_t)(is_named && !old ? namer + 1 : 0);
    }
    return 0;
}
