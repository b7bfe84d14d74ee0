/*
 * repaired_again.c: what a repaired table is good for. Repaired once more by the same
 * masks it stays as it is; it is a fault table, of which a notice is written and by
 * which nodes are labelled; and walks then pass no node that was named.
 */
#include <string.h>

#include "cases.h"
#include "check.h"
#include "groups.h"
#include "lent.h"

static uint8_t faults[HCUBE_FAULT_BYTES_MAX], result[HCUBE_FAULT_BYTES_MAX];
static uint8_t again[HCUBE_FAULT_BYTES_MAX];
static uint16_t masks[HCUBE_NODES_MAX], row[HCUBE_NODES_MAX];

static void repair(uint32_t n, const uint8_t *table, uint8_t *into)
{
    put_anything(into, HCUBE_FAULT_BYTES(n));
    put_anything((uint8_t *)row, HCUBE_NODES(n) * sizeof *row);
    expect(check_repair(fit_repair(n, table, masks, into, row)) == 0,
           "n = %u: refused", n);
}

/* ---- once more */

static void is_last(uint32_t n)
{
    int none = 1;
    repair(n, faults, result);
    repair(n, result, again);
    expect(!memcmp(again, result, HCUBE_FAULT_BYTES(n)), "n = %u: more are added",
           n);
    for (uint32_t k = 0; k < 1u << n; k++)
        none &= row[k] == 0;
    expect(none, "n = %u: a row that is not of zeros", n);
}

void check_repaired_again(void)
{
    begin_group("tables repaired again by the same masks");
    for (unsigned bits = 0; bits < 16; bits++)
        for (unsigned of = 0; of < 256; of++) {
            faults[0] = (uint8_t)bits;
            for (uint32_t w = 0; w < 4; w++)
                masks[w] = of >> 2 * w & 3;
            is_last(2);
        }
    for (unsigned k = 0; k < 3000; k++) {
        uint32_t n = 1 + k % 12;
        random_faults(n, random_density(n), faults);
        random_masks(n, masks);
        is_last(n);
    }
    end_group();
}

/* ---- from a notice to a walk */

/* The table of an older notice, of which only some of the dead nodes are. */
static void read_older(uint32_t n, const uint8_t *dead)
{
    static uint8_t older[HCUBE_FAULT_BYTES_MAX];
    static uint8_t notice[HCUBE_NOTICE_BYTES_MAX];
    uint32_t len;
    for (size_t at = 0; at < HCUBE_FAULT_BYTES(n); at++)
        older[at] = (uint8_t)(dead[at] & random_bits());
    len = check_write(fit_write(n, older, notice));
    expect(HCUBE_REFUSAL(len) == 0, "n = %u: no notice", n);
    put_anything(faults, HCUBE_FAULT_BYTES(n));
    check_notice(notice, HCUBE_VALUE(len), faults, HCUBE_FAULT_BYTES(n));
    expect(!memcmp(faults, older, HCUBE_FAULT_BYTES(n)), "n = %u: read as another",
           n);
}

/* The repaired table's notice is read as that table. */
static void has_notice(uint32_t n)
{
    static uint8_t notice[HCUBE_NOTICE_BYTES_MAX];
    uint32_t len = check_write(fit_write(n, result, notice));
    expect(HCUBE_REFUSAL(len) == 0, "n = %u: its notice %08x", n, len);
    put_anything(again, HCUBE_FAULT_BYTES(n));
    check_notice(notice, HCUBE_VALUE(len), again, HCUBE_FAULT_BYTES(n));
    expect(!memcmp(again, result, HCUBE_FAULT_BYTES(n)),
           "n = %u: its notice is another's", n);
}

/* A walk of nodes that are not in the repaired table, by its labels. */
static void walk_around(uint32_t n, const uint8_t *half, uint32_t s, uint32_t d)
{
    uint8_t way[ROW_BYTES];
    uint32_t answer;
    put_anything(way, sizeof way);
    answer = check_walk(fit_walk(n, s, d, half, way));
    expect(HCUBE_REFUSAL(answer) == 0, "n = %u, %u to %u: %08x", n, s, d, answer);
    for (uint32_t k = 0; k <= HCUBE_VALUE(answer) && k < ROW_PLACES; k++)
        expect(!in_table(result, row_place(way, k)),
               "n = %u, %u to %u: over node %u", n, s, d, row_place(way, k));
}

/* Faulty are the old faults and those that were added, and no others. */
static void label_repaired(uint32_t n, uint8_t *half)
{
    struct label_question asked = fit_label(n, result, half);
    uint32_t answer = check_label(asked);
    expect(HCUBE_REFUSAL(answer) == 0, "n = %u: labels %08x", n, answer);
    keep_half(asked, half);
    for (uint32_t k = 0; k < 1u << n; k++)
        expect((half[k] == HCUBE_FAULTY) == (in_table(faults, k) || row[k] != 0),
               "n = %u, node %u: label %u", n, k, half[k]);
}

void check_repaired_chain(void)
{
    static uint8_t dead[HCUBE_FAULT_BYTES_MAX], half[HCUBE_NODES_MAX];
    begin_group("from a notice over a repair to labels and walks");
    for (unsigned k = 0; k < 480; k++) {
        uint32_t n = 1 + k % 12;
        random_faults(n, k % 5 ? 1 + random_below(300) : random_density(n), dead);
        read_older(n, dead);
        if (k % 3)
            masks_of(n, dead, masks);
        else
            random_masks(n, masks);
        repair(n, faults, result);
        has_notice(n);
        label_repaired(n, half);
        for (unsigned walks = 0; walks < 60; walks++) {
            uint32_t s = random_below(1u << n), d = random_below(1u << n);
            if (!in_table(result, s) && !in_table(result, d))
                walk_around(n, half, s, d);
        }
    }
    end_group();
}
