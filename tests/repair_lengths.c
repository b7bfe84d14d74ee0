/*
 * repair_lengths.c: repairing on buffers of every kind of length, of bytes where
 * numbers are counted too, and what is refused since a length is right in its low 32
 * bits alone.
 */
#define _DEFAULT_SOURCE /* MAP_ANONYMOUS, MAP_NORESERVE */
#include <string.h>
#include <sys/mman.h>

#include "cases.h"
#include "check.h"
#include "groups.h"
#include "lent.h"

static uint8_t faults[MOST_LENT], result[MOST_LENT];
static uint16_t masks[MOST_LENT / 2], row[MOST_LENT / 2];

/* What is right but for one length: each from 0 on, and those far too long. Twice
 * as many numbers are as many as the buffer has bytes. */
static void lengths_of(uint32_t n, unsigned which)
{
    struct repair_question asked = fit_repair(n, faults, masks, result, row);
    size_t *lengths[] = {&asked.faults_len, &asked.masks_len, &asked.result_len,
                         &asked.row_len};
    size_t exact = *lengths[which], most = which % 2 ? MOST_LENT / 2 : MOST_LENT;
    const size_t far[] = {2 * exact, exact / 2, exact + 256, exact + 4096,
                          exact - 1, exact + 1, most};
    random_faults(n, 500, faults);
    random_masks(n, masks);
    for (size_t k = 0; k < 40 + COUNT(far); k++) {
        *lengths[which] = k < 40 ? k : far[k - 40];
        if (*lengths[which] == exact)
            continue;
        if (k == 9) /* what would be refused behind it */
            masks[0] |= 0x8000;
        expect(check_repair(asked) == REFUSED(2), "repair n=%u, length %u: %u", n,
               which, (unsigned)*lengths[which]);
    }
}

/* Each buffer in turn is `big` and too long: n = 3, right in the low 32 bits of its
 * length alone. */
static void repair_with(void *big, size_t beyond)
{
    uint8_t table[1] = {0x10}, repaired[1] = {0x77};
    uint16_t few[8] = {0}, by[8] = {0x7777};
    struct repair_question right = fit_repair(3, table, few, repaired, by);
    struct repair_question asked = right;
    asked.faults = big;
    asked.faults_len += beyond;
    expect(ask_repair(asked) == REFUSED(2), "a table of 2^32 + 1 bytes");
    asked = right;
    asked.masks = big;
    asked.masks_len += beyond;
    expect(ask_repair(asked) == REFUSED(2), "2^32 + 8 masks");
    asked = right;
    asked.result = big;
    asked.result_len += beyond;
    expect(ask_repair(asked) == REFUSED(2), "a result of 2^32 + 1 bytes");
    asked = right;
    asked.row = big;
    asked.row_len += beyond;
    expect(ask_repair(asked) == REFUSED(2), "a row of 2^32 + 8 numbers");
    expect(repaired[0] == 0x77 && by[0] == 0x7777, "a byte changed");
    expect(ask_repair(right) == 0 && repaired[0] == 0x10 && by[0] == 0,
           "each length right");
}

void check_repair_lengths(void)
{
    size_t beyond = (size_t)1 << 32, len = 2 * beyond + 4096;
    void *big = mmap(NULL, len, PROT_READ | PROT_WRITE,
                     MAP_PRIVATE | MAP_ANONYMOUS | MAP_NORESERVE, -1, 0);
    begin_group("repairing, lengths from 0 to far too long");
    random_bytes(result, sizeof result);
    random_bytes((uint8_t *)row, sizeof row);
    for (uint32_t n = 1; n <= 12; n++)
        for (unsigned which = 0; which < 4; which++)
            lengths_of(n, which);
    expect(big != MAP_FAILED, "no address space of 8 GiB");
    if (big != MAP_FAILED) {
        repair_with(big, beyond);
        munmap(big, len);
    }
    end_group();
}
