/*
 * plain_repair.c: the library's algorithm in plain C, to measure the archive
 * against: repairing a fault table by the masks of its nodes. PREFIX is the prefix
 * of the functions' names.
 */
#include "plain.h"

static inline int in_table(const uint8_t *table, size_t k)
{
    return table[k / 8] >> (k % 8) & 1;
}

static int some_stray(uint32_t n, const uint16_t *masks, size_t count)
{
    for (size_t w = 0; w < count; w++)
        if (masks[w] >> n)
            return 1;
    return 0;
}

static uint32_t refusal(uint32_t n, const uint8_t *faults, size_t faults_len,
                        const uint16_t *masks, size_t masks_len,
                        size_t result_len, size_t row_len)
{
    size_t nodes = (size_t)1 << n, bytes = (nodes + 7) / 8;
    if (faults_len != bytes || masks_len != nodes || result_len != bytes ||
        row_len != nodes)
        return 2;
    if (n < 3 && faults[0] >> nodes)
        return 3;
    return some_stray(n, masks, masks_len) ? 17 : 0;
}

/* Whoever is in the result already is an old fault, or was named by a lower node. */
static inline void hear(uint32_t n, size_t w, uint16_t mask, uint8_t *result,
                        uint16_t *row)
{
    for (uint32_t i = 0; i < n; i++) {
        size_t k = w ^ (size_t)1 << i;
        if (!(mask >> i & 1) || in_table(result, k))
            continue;
        result[k / 8] |= (uint8_t)(1u << (k % 8));
        row[k] = (uint16_t)(w + 1);
    }
}

uint32_t NAME(repair)(uint32_t n, const uint8_t *faults, size_t faults_len,
                      const uint16_t *masks, size_t masks_len, uint8_t *result,
                      size_t result_len, uint16_t *row, size_t row_len)
{
    uint32_t found;
    if (n < 1 || n > 12)
        return refused(1);
    found = refusal(n, faults, faults_len, masks, masks_len, result_len, row_len);
    if (found)
        return refused(found);
    for (size_t k = 0; k < faults_len; k++)
        result[k] = faults[k];
    for (size_t k = 0; k < row_len; k++)
        row[k] = 0;
    for (size_t w = 0; w < masks_len; w++)
        if (masks[w] != 0 && !in_table(faults, w))
            hear(n, w, masks[w], result, row);
    return 0;
}
