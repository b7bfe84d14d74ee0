/*
 * orders_list.c: for reading list text and for writing it, inputs to which two
 * refusals apply at once.
 */
#include <string.h>

#include "cases.h"
#include "check.h"
#include "orders.h"

/* ---- reading: n with a table that fits but for faults_more */

static const struct order list_orders[] = {
    {.first = 1, .second = 2, .n = 0, .text = "0", .faults_more = 1},
    {.first = 1, .second = 2, .n = 0, .text = "0", .faults_more = -1},
    {.first = 1, .second = 2, .n = 13, .text = "0", .faults_more = -512},
    {.first = 1, .second = 2, .n = 260, .text = "0", .faults_more = 1},
    {.first = 1, .second = 14, .n = 0, .text = "0,"},
    {.first = 1, .second = 14, .n = 13, .text = "-"},
    {.first = 1, .second = 14, .n = 260, .text = "3-2"},
    {.first = 1, .second = 14, .n = 0x80000004u, .text = "00"},
    {.first = 1, .second = 12, .n = 0, .text = "1"},
    {.first = 1, .second = 12, .n = 13, .text = "8192"},
    {.first = 1, .second = 12, .n = 260, .text = "16"},
    {.first = 1, .second = 12, .n = 257, .text = "99999999999999999999"},
    {.first = 2, .second = 14, .n = 1, .text = ",", .faults_more = -1},
    {.first = 2, .second = 14, .n = 4, .text = "0 ", .faults_more = 1},
    {.first = 2, .second = 14, .n = 4, .text = "1-0", .faults_more = -1},
    {.first = 2, .second = 14, .n = 12, .text = "all", .faults_more = -512},
    {.first = 2, .second = 12, .n = 1, .text = "2", .faults_more = 1},
    {.first = 2, .second = 12, .n = 4, .text = "16", .faults_more = -1},
    {.first = 2, .second = 12, .n = 4, .text = "16", .faults_more = 1},
    {.first = 2, .second = 12, .n = 12, .text = "4096", .faults_more = 1},
    {.first = 14, .second = 12, .n = 4, .text = "16,"},
    {.first = 14, .second = 12, .n = 4, .text = "9999,0-"},
    {.first = 14, .second = 12, .n = 4, .text = "0-,9999"},
    {.first = 14, .second = 12, .n = 4, .text = "17-16"},
    {.first = 14, .second = 12, .n = 4, .text = "16,00"},
    {.first = 14, .second = 12, .n = 4, .text = "00,16"},
    {.first = 14, .second = 12, .n = 4, .text = "0-16,1-0"},
    {.first = 14, .second = 12, .n = 1, .text = "2\n"},
    {.first = 14, .second = 12, .n = 12, .text = "4096 "},
    {.first = 14, .second = 12, .n = 12, .text = "99999999999999999999-1"},
    {.first = 14, .second = 12, .n = 12, .text = "99999999999999999999,x"},
};

/* It names no job. */
static uint64_t list_answer(const struct order *order, uint32_t job)
{
    static uint8_t faults[2048];
    struct list_question asked =
        fit_list(order->n & 255, (const uint8_t *)order->text,
                 strlen(order->text), faults);
    (void)job;
    random_bytes(faults, sizeof faults);
    asked.n = order->n;
    asked.faults_len += (size_t)order->faults_more;
    return check_list(asked);
}

/* ---- writing: where there is a fault, no byte of room is too little */

#define NO_BYTE (-HCUBE_LIST_BYTES_MAX)

static const struct order write_orders[] = {
    {.first = 1, .second = 2, .n = 0, .faults_more = 1},
    {.first = 1, .second = 2, .n = 0, .faults_more = -1},
    {.first = 1, .second = 2, .n = 13, .faults_more = -512},
    {.first = 1, .second = 2, .n = 260, .faults_more = 1},
    {.first = 1, .second = 3, .n = 0, .fault_byte = 255},
    {.first = 1, .second = 3, .n = 257, .fault_byte = 4},
    {.first = 1, .second = 3, .n = 258, .fault_byte = 16},
    {.first = 1, .second = 13, .n = 0, .fault_byte = 1, .out_more = NO_BYTE},
    {.first = 1, .second = 13, .n = 13, .fault_byte = 255, .out_more = NO_BYTE},
    {.first = 1, .second = 13, .n = 260, .fault_byte = 1, .out_more = NO_BYTE},
    {.first = 1, .second = 13, .n = 268, .fault_byte = 0x55,
     .out_more = NO_BYTE + 2},
    {.first = 2, .second = 3, .n = 1, .fault_byte = 4, .faults_more = 1},
    {.first = 2, .second = 3, .n = 2, .fault_byte = 16, .faults_more = 3},
    {.first = 2, .second = 3, .n = 1, .fault_byte = 255, .faults_more = -1},
    {.first = 2, .second = 13, .n = 1, .fault_byte = 1, .faults_more = 1,
     .out_more = NO_BYTE},
    {.first = 2, .second = 13, .n = 4, .fault_byte = 1, .faults_more = -1,
     .out_more = NO_BYTE},
    {.first = 2, .second = 13, .n = 12, .fault_byte = 0x55, .faults_more = 1,
     .out_more = -4000},
    {.first = 3, .second = 13, .n = 1, .fault_byte = 4, .out_more = NO_BYTE},
    {.first = 3, .second = 13, .n = 1, .fault_byte = 7,
     .out_more = NO_BYTE + 2},
    {.first = 3, .second = 13, .n = 2, .fault_byte = 0x80, .out_more = NO_BYTE},
    {.first = 3, .second = 13, .n = 2, .fault_byte = 255,
     .out_more = NO_BYTE + 2},
};

static uint64_t write_answer(const struct order *order, uint32_t job)
{
    static uint8_t faults[2048], out[HCUBE_LIST_BYTES_MAX];
    struct write_question asked = fit_write_list(order->n & 255, faults, out);
    (void)job;
    memset(faults, order->fault_byte, sizeof faults);
    random_bytes(out, sizeof out);
    asked.n = order->n;
    asked.faults_len += (size_t)order->faults_more;
    asked.out_len += (size_t)order->out_more;
    return check_write_list(asked);
}

void check_list_orders(void)
{
    check_order(LIST, list_answer, list_orders, COUNT(list_orders));
    check_order(WRITE_LIST, write_answer, write_orders, COUNT(write_orders));
}
