/* check_repair.c: what check.c does, for fault tables that are repaired. */
#include "check.h"

#include <string.h>

#include "cases.h"
#include "lent.h"

static struct lent faults, masks, result, row;
static uint8_t wanted[MOST_LENT];
static uint16_t wanted_row[MOST_LENT / 2];

/* The same question with guarded buffers. */
static struct repair_question lend_repair(struct repair_question asked)
{
    struct repair_question lent = asked;
    lend(&faults, asked.faults, asked.faults_len);
    lend(&result, asked.result, asked.result_len);
    lent.masks = lend_numbers(&masks, asked.masks, asked.masks_len);
    lent.row = lend_numbers(&row, asked.row, asked.row_len);
    lent.faults = faults.bytes;
    lent.result = result.bytes;
    return lent;
}

uint32_t check_repair(struct repair_question asked)
{
    struct repair_question lent = lend_repair(asked);
    uint32_t answer, want;
    memcpy(wanted, asked.result, asked.result_len);
    memcpy(wanted_row, asked.row, asked.row_len * sizeof *asked.row);
    want = ref_repair(asked.n, asked.faults, asked.faults_len, asked.masks,
                      asked.masks_len, wanted, asked.result_len, wanted_row,
                      asked.row_len);
    answer = ask_repair(lent);
    expect(answer == want, "repair n=%u: %08x, not %08x", asked.n, answer, want);
    expect(lent_is(&faults, asked.faults) && lent_is(&masks, asked.masks),
           "repair n=%u (%08x): what is only read changed", asked.n, want);
    expect(lent_is(&result, wanted), "repair n=%u (%08x): wrong table", asked.n,
           want);
    expect(lent_is(&row, wanted_row), "repair n=%u (%08x): wrong row", asked.n,
           want);
    saw_repair(asked, want, wanted_row);
    memcpy(asked.result, result.bytes, asked.result_len);
    memcpy(asked.row, row.bytes, asked.row_len * sizeof *asked.row);
    return answer;
}
