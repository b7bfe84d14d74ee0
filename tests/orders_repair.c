/* orders_repair.c: for repairing a table, inputs to which two refusals apply at once. */
#include <string.h>

#include "cases.h"
#include "check.h"
#include "orders.h"

/* n with buffers that fit but for what is beyond; node s has the mask. */
static const struct order repair_orders[] = {
    {.first = 1, .second = 2, .n = 0, .faults_more = 1},
    {.first = 1, .second = 2, .n = 0, .masks_more = -1},
    {.first = 1, .second = 2, .n = 13, .faults_more = -512, .result_more = -512,
     .masks_more = -4096, .row_more = -4096},
    {.first = 1, .second = 2, .n = 260, .result_more = 1},
    {.first = 1, .second = 2, .n = 0x80000004u, .row_more = -1},
    {.first = 1, .second = 3, .n = 0, .fault_byte = 255},
    {.first = 1, .second = 3, .n = 257, .fault_byte = 4},
    {.first = 1, .second = 3, .n = 258, .fault_byte = 16},
    {.first = 1, .second = 17, .n = 0, .mask = 1},
    {.first = 1, .second = 17, .n = 13, .mask = 0x2000},
    {.first = 1, .second = 17, .n = 260, .s = 15, .mask = 16},
    {.first = 1, .second = 17, .n = 257, .mask = 0x8000},
    {.first = 2, .second = 3, .n = 1, .fault_byte = 4, .faults_more = 1},
    {.first = 2, .second = 3, .n = 1, .fault_byte = 255, .faults_more = -1},
    {.first = 2, .second = 3, .n = 2, .fault_byte = 16, .masks_more = 1},
    {.first = 2, .second = 3, .n = 2, .fault_byte = 16, .masks_more = 4},
    {.first = 2, .second = 3, .n = 1, .fault_byte = 8, .result_more = -1},
    {.first = 2, .second = 3, .n = 1, .fault_byte = 8, .result_more = 1},
    {.first = 2, .second = 3, .n = 2, .fault_byte = 128, .row_more = -1},
    {.first = 2, .second = 3, .n = 2, .fault_byte = 128, .row_more = 4},
    {.first = 2, .second = 17, .n = 1, .mask = 2, .faults_more = 1},
    {.first = 2, .second = 17, .n = 4, .mask = 16, .faults_more = -1},
    {.first = 2, .second = 17, .n = 4, .mask = 16, .masks_more = 1},
    {.first = 2, .second = 17, .n = 4, .mask = 16, .masks_more = 16},
    {.first = 2, .second = 17, .n = 4, .mask = 16, .masks_more = -1},
    {.first = 2, .second = 17, .n = 4, .s = 15, .mask = 0x8000,
     .result_more = 1},
    {.first = 2, .second = 17, .n = 4, .s = 15, .mask = 0x8000,
     .result_more = -2},
    {.first = 2, .second = 17, .n = 12, .s = 4095, .mask = 0x1000,
     .row_more = -1},
    {.first = 2, .second = 17, .n = 12, .s = 4095, .mask = 0x1000,
     .row_more = 1},
    {.first = 3, .second = 17, .n = 1, .fault_byte = 4, .mask = 2},
    {.first = 3, .second = 17, .n = 1, .fault_byte = 0xfc, .s = 1,
     .mask = 0x8001},
    {.first = 3, .second = 17, .n = 1, .fault_byte = 7, .s = 1, .mask = 2},
    {.first = 3, .second = 17, .n = 2, .fault_byte = 16, .mask = 4},
    {.first = 3, .second = 17, .n = 2, .fault_byte = 0x80, .s = 3,
     .mask = 0xffff},
};

/* It names no job. */
static uint64_t repair_answer(const struct order *order, uint32_t job)
{
    static uint8_t faults[2048], result[2048];
    static uint16_t masks[16384], row[16384];
    struct repair_question asked =
        fit_repair(order->n & 255, faults, masks, result, row);
    (void)job;
    memset(faults, order->fault_byte, sizeof faults);
    memset(masks, 0, sizeof masks);
    masks[order->s] = order->mask;
    random_bytes(result, sizeof result);
    random_bytes((uint8_t *)row, sizeof row);
    asked.n = order->n;
    asked.faults_len += (size_t)order->faults_more;
    asked.masks_len += (size_t)order->masks_more;
    asked.result_len += (size_t)order->result_more;
    asked.row_len += (size_t)order->row_more;
    return check_repair(asked);
}

void check_repair_orders(void)
{
    check_order(REPAIR, repair_answer, repair_orders, COUNT(repair_orders));
}
