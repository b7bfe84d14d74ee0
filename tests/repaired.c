/*
 * repaired.c: repairing against the reference, and as it is said here once more, by
 * the nodes that name and from the highest down: every table and all masks of n = 1
 * and 2, each one and each two masks of small cubes, random ones to n = 12, and the
 * masks of a cabinet in which nodes died.
 */
#include <string.h>

#include "cases.h"
#include "check.h"
#include "groups.h"
#include "lent.h"

static uint8_t faults[HCUBE_FAULT_BYTES_MAX], result[HCUBE_FAULT_BYTES_MAX];
static uint8_t wanted[HCUBE_FAULT_BYTES_MAX];
static uint16_t masks[HCUBE_NODES_MAX], row[HCUBE_NODES_MAX];
static uint16_t wanted_row[HCUBE_NODES_MAX];

/* Whoever names a node last is the lowest that does. */
static void say_again(uint32_t n)
{
    memcpy(wanted, faults, HCUBE_FAULT_BYTES(n));
    memset(wanted_row, 0, HCUBE_NODES(n) * sizeof *wanted_row);
    for (uint32_t w = 1u << n; w-- > 0;)
        for (uint32_t i = 0; i < n; i++) {
            uint32_t k = w ^ 1u << i;
            if (in_table(faults, w) || !(masks[w] >> i & 1))
                continue;
            put_node(wanted, k);
            if (!in_table(faults, k))
                wanted_row[k] = (uint16_t)(w + 1);
        }
}

/* Repairs the table at hand over any bytes. */
static uint32_t repair(uint32_t n)
{
    put_anything(result, HCUBE_FAULT_BYTES(n));
    put_anything((uint8_t *)row, HCUBE_NODES(n) * sizeof *row);
    return check_repair(fit_repair(n, faults, masks, result, row));
}

static void is_repaired(uint32_t n)
{
    say_again(n);
    expect(repair(n) == 0, "n = %u: refused", n);
    expect(!memcmp(result, wanted, HCUBE_FAULT_BYTES(n)), "n = %u: other table",
           n);
    expect(!memcmp(row, wanted_row, HCUBE_NODES(n) * sizeof *row),
           "n = %u: other row", n);
}

/* ---- every table and all masks of n = 1 and 2 */

/* Bits that are no node's are refused with 3, whatever the masks. */
static void small_table(uint32_t n, unsigned bits)
{
    unsigned all = 1u << (n << n); /* n bits for each of 2^n nodes */
    faults[0] = (uint8_t)bits;
    for (unsigned of = 0; of < all; of++) {
        for (uint32_t w = 0; w < 1u << n; w++)
            masks[w] = (uint16_t)(of >> n * w & ((1u << n) - 1));
        if (bits >> (1u << n))
            expect(repair(n) == REFUSED(3), "n = %u, table %02x", n, bits);
        else
            is_repaired(n);
    }
}

void check_small_repairs(void)
{
    begin_group("every table with all masks of n = 1 and 2 repaired");
    for (uint32_t n = 1; n <= 2; n++)
        for (unsigned bits = 0; bits < 256; bits++)
            small_table(n, bits);
    end_group();
}

/* ---- one mask and two of small cubes */

static void put_bits(unsigned bits)
{
    for (size_t k = 0; k < 4; k++)
        faults[k] = (uint8_t)((uint32_t)bits >> 8 * k);
}

/* Every mask of this node alone, and beside any mask of each other one. */
static void masks_at(uint32_t n, uint32_t w)
{
    for (uint32_t mask = 0; mask < 1u << n; mask++) {
        memset(masks, 0, HCUBE_NODES(n) * sizeof *masks);
        masks[w] = (uint16_t)mask;
        is_repaired(n);
        for (uint32_t other = 0; other < w; other++) {
            masks[other] = (uint16_t)random_below(1u << n);
            is_repaired(n);
            masks[other] = 0;
        }
    }
}

void check_few_masks(void)
{
    begin_group("one mask and two of n = 3 to 5");
    for (unsigned bits = 0; bits < 256; bits++)
        for (uint32_t w = 0; w < 8; w++) {
            put_bits(bits);
            masks_at(3, w);
        }
    for (unsigned k = 0; k < 200; k++) {
        uint32_t n = 4 + k % 2;
        random_faults(n, random_density(n), faults);
        masks_at(n, random_below(1u << n));
    }
    end_group();
}

/* ---- random tables and masks */

void check_random_repairs(void)
{
    begin_group("12,000 random tables repaired");
    for (unsigned k = 0; k < 12000; k++) {
        uint32_t n = 1 + k % 12;
        random_faults(n, random_density(n), faults);
        random_masks(n, masks);
        is_repaired(n);
    }
    for (uint32_t n = 1; n <= 12; n++)
        for (unsigned per_mille = 0; per_mille <= 1000; per_mille += 50) {
            random_faults(n, per_mille, faults);
            for (uint32_t w = 0; w < 1u << n; w++)
                masks[w] = (uint16_t)((1u << n) - 1);
            is_repaired(n);
            memset(masks, 0, sizeof masks);
            is_repaired(n);
        }
    end_group();
}

/* ---- cabinets */

/* Whether some neighbour lives and works by the table. */
static int is_told(uint32_t n, const uint8_t *dead, uint32_t k)
{
    for (uint32_t i = 0; i < n; i++)
        if (!in_table(dead, k ^ 1u << i) && !in_table(faults, k ^ 1u << i))
            return 1;
    return 0;
}

/* The table knows a part of the dead, and maybe of nodes that live again. Those are
 * added who died since, but for those that nobody is left to name. */
static void one_cabinet(uint32_t n, const uint8_t *dead)
{
    masks_of(n, dead, masks);
    is_repaired(n);
    for (uint32_t k = 0; k < 1u << n; k++) {
        int told = in_table(dead, k) && is_told(n, dead, k);
        expect(in_table(result, k) == (in_table(faults, k) || told),
               "n = %u, node %u: added or not", n, k);
        expect(!row[k] == !(told && !in_table(faults, k)), "n = %u, node %u: %u",
               n, k, row[k]);
        expect(!row[k] || !in_table(dead, row[k] - 1u),
               "n = %u, node %u: named by the dead", n, k);
    }
}

void check_cabinets_repaired(void)
{
    static uint8_t dead[HCUBE_FAULT_BYTES_MAX];
    begin_group("cabinets repaired in which nodes died");
    for (unsigned k = 0; k < 600; k++) {
        uint32_t n = 1 + k % 12;
        random_faults(n, random_density(n), dead);
        for (size_t at = 0; at < HCUBE_FAULT_BYTES(n); at++)
            faults[at] = (uint8_t)(dead[at] & random_bits());
        one_cabinet(n, dead);
        random_faults(n, random_density(n), faults);
        one_cabinet(n, dead);
        memset(faults, 0, sizeof faults);
        one_cabinet(n, dead);
    }
    end_group();
}
