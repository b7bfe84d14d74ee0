/*
 * repair_refused.c: repairing with all that it refuses, in every combination; with a
 * bit too high in every mask; on random damage; with dimensions that would fit once
 * narrowed; and on buffers that cannot be written to. What is due stands here once
 * more, as in combinations.c.
 */
#include <string.h>

#include "cases.h"
#include "check.h"
#include "combinations.h"
#include "groups.h"
#include "lent.h"

static uint8_t faults[MOST_LENT], result[MOST_LENT];
static uint16_t masks[MOST_LENT / 2], row[MOST_LENT / 2];

/* Any bytes, before something that is refused or that is to write them all. */
static void put_any_result(void)
{
    random_bytes(result, sizeof result);
    random_bytes((uint8_t *)row, sizeof row);
}

/* ---- every combination */

enum { NO_MASK, GOOD, FIRST_STRAYS, LAST_STRAYS, FAULTY_STRAYS, ALL_BITS, MASKS };

/* Masks of a cube with these nodes; node 1 is faulty in each table that is tried
 * with FAULTY_STRAYS. */
static void put_masks(unsigned kind, uint32_t n)
{
    uint32_t last = (1u << n) - 1;
    memset(masks, kind == ALL_BITS ? 0xff : 0, (2u << n) * sizeof *masks);
    switch (kind) {
    case GOOD: masks[0] = masks[last] = (uint16_t)((1u << n) - 1); break;
    case FIRST_STRAYS: masks[0] = (uint16_t)(1u << n); break;
    case LAST_STRAYS: masks[last] = 0x8000; break;
    case FAULTY_STRAYS: masks[1] = (uint16_t)(3u << n); break;
    }
}

static unsigned all_repairs(unsigned from)
{
    static const uint8_t tables[] = {0, 2, 3, 6, 0x12, 0x82, 255};
    struct repair_question asked;
    unsigned due = 0, lengths[4], kind;
    uint32_t n;
    number = from;
    n = ANY_OF(dimensions);
    lengths[0] = part(LONG + 1);
    lengths[1] = part(LENGTHS);
    lengths[2] = part(LONG + 1);
    lengths[3] = part(LENGTHS);
    memset(faults, 0, HCUBE_FAULT_BYTES(14));
    faults[0] = ANY_OF(tables);
    kind = part(MASKS);
    put_masks(kind, n & 255);
    asked = fit_repair(n & 255, faults, masks, result, row);
    asked.n = n;
    asked.faults_len = length_of(lengths[0], asked.faults_len);
    asked.masks_len = length_of(lengths[1], asked.masks_len);
    asked.result_len = length_of(lengths[2], asked.result_len);
    asked.row_len = length_of(lengths[3], asked.row_len);
    if (n < 1 || n > 12)
        due = 1;
    else if (lengths[0] != RIGHT || lengths[1] != RIGHT || lengths[2] != RIGHT ||
             lengths[3] != RIGHT)
        due = 2;
    else if (n < 3 && faults[0] >> (1u << n))
        due = 3;
    else if (kind > GOOD)
        due = 17;
    if (number == 0)
        is_due("repair", from, check_repair(asked), due);
    return number;
}

void check_repair_combinations(void)
{
    put_any_result();
    check_all("repairing, all that is refused in every combination", all_repairs);
}

/* ---- a bit at n or above */

/* Of each node, or of some in a large cube; with the node faulty and with it not. */
void check_repair_strays(void)
{
    begin_group("masks with a bit at n or above");
    for (uint32_t n = 1; n <= 12; n++)
        for (uint32_t w = 0; w < 1u << n; w += n < 8 ? 1 : random_below(1u << n) / 16 + 1)
            for (uint32_t i = 0; i < 16; i++) {
                struct repair_question asked =
                    fit_repair(n, faults, masks, result, row);
                random_faults(n, random_density(n), faults);
                random_masks(n, masks);
                if (random_below(2))
                    put_node(faults, w);
                masks[w] |= (uint16_t)(1u << i);
                put_anything(result, HCUBE_FAULT_BYTES(n));
                expect(check_repair(asked) == REFUSED(i < n ? 0 : 17),
                       "n = %u, node %u, bit %u", n, w, i);
            }
    end_group();
}

/* ---- random damage */

static size_t any_length(size_t exact)
{
    switch (random_below(40)) {
    case 0: return 0;
    case 1: return exact - 1;
    case 2: return exact + 1;
    case 3: return exact * 2;
    case 4: return exact / 2;
    case 5: return random_below(600);
    default: return exact;
    }
}

void check_repair_damaged(void)
{
    begin_group("8,000 damaged tables and masks, repaired");
    put_any_result();
    for (unsigned k = 0; k < 8000; k++) {
        uint32_t n = any_dimension(), fitting = 1 + (n - 1) % 12;
        struct repair_question asked =
            fit_repair(fitting, faults, masks, result, row);
        random_faults(fitting, random_density(fitting), faults);
        random_masks(fitting, masks);
        if (random_below(4) == 0)
            faults[0] |= (uint8_t)(1u << random_below(8));
        if (random_below(4) == 0)
            masks[random_below(1u << fitting)] |= (uint16_t)(1u << random_below(16));
        asked.n = n;
        asked.faults_len = any_length(asked.faults_len);
        asked.masks_len = any_length(asked.masks_len);
        asked.result_len = any_length(asked.result_len);
        asked.row_len = any_length(asked.row_len);
        check_repair(asked);
    }
    end_group();
}

/* ---- dimensions that would be good once narrowed */

/* Asked with the buffers of this dimension: nobody is faulty, and nobody names. */
static void no_dimension(uint32_t n, uint32_t fitting)
{
    struct repair_question asked = fit_repair(fitting, faults, masks, result, row);
    asked.n = n;
    expect(check_repair(asked) == REFUSED(1), "repair, n = %u", n);
}

void check_repair_dimensions(void)
{
    begin_group("dimensions tested before they are narrowed, repaired");
    put_any_result();
    memset(faults, 0, sizeof faults);
    memset(masks, 0, sizeof masks);
    ask_no_dimensions(no_dimension);
    end_group();
}

/* ---- bytes that may only be read: table and masks always; result and row where it
 * is refused */

static void leaves_alone(struct repair_question asked, uint32_t answer)
{
    static struct lent table, said, repaired, by;
    struct repair_question lent = asked;
    size_t row_bytes = asked.row_len * sizeof *row;
    uint32_t got;
    lend_to_read(&table, asked.faults, asked.faults_len,
                 random_below(2) ? 0 : random_below(64));
    lend_to_read(&said, asked.masks, asked.masks_len * sizeof *masks,
                 2 * random_below(32));
    lend_to_read(&repaired, asked.result, asked.result_len,
                 answer ? random_below(2) : asked.result_len);
    lend_to_read(&by, asked.row, row_bytes,
                 answer ? 2 * random_below(2) : row_bytes);
    lent.faults = table.bytes;
    lent.masks = (const uint16_t *)(const void *)said.bytes;
    lent.result = repaired.bytes;
    lent.row = (uint16_t *)(void *)by.bytes;
    got = ask_repair(lent);
    expect(got == answer, "repair n=%u: %08x, not %08x", asked.n, got, answer);
    if (answer)
        expect(lent_is(&repaired, asked.result) && lent_is(&by, asked.row),
               "repair n=%u (%08x): written to", asked.n, answer);
}

static void all_left_alone(uint32_t n)
{
    struct repair_question asked = fit_repair(n, faults, masks, result, row);
    size_t *lengths[] = {&asked.faults_len, &asked.masks_len, &asked.result_len,
                         &asked.row_len};
    random_faults(n, random_density(n), faults);
    random_masks(n, masks);
    leaves_alone(asked, 0);
    asked.n += 16;
    leaves_alone(asked, REFUSED(1));
    asked.n = n;
    for (unsigned k = 0; k < COUNT(lengths); k++) {
        size_t exact = *lengths[k];
        *lengths[k] += random_below(2) ? 1 : -(size_t)1;
        leaves_alone(asked, REFUSED(2));
        *lengths[k] = exact;
    }
    masks[random_below(1u << n)] |= (uint16_t)(1u << (n + random_below(16 - n)));
    leaves_alone(asked, REFUSED(17));
    if (n > 2)
        return;
    faults[0] |= (uint8_t)(1u << ((1u << n) + random_below(8 - (1u << n))));
    leaves_alone(asked, REFUSED(3));
}

void check_repair_left(void)
{
    begin_group("repairing, what is only to be read left alone");
    put_any_result();
    for (unsigned k = 0; k < 600; k++)
        all_left_alone(1 + k % 12);
    end_group();
}
