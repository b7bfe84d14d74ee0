/*
 * orders_label.c: for labelling, and why a node has its label, inputs to which
 * two refusals apply at once. 1 and 3 meet only where n is right once narrowed.
 * 5 is none of labelling's: there the first stands alone.
 */
#include <string.h>

#include "cases.h"
#include "check.h"
#include "lent.h"
#include "orders.h"

/* The longest tables are those of n = 13, and a byte more. */
static uint8_t faults[2048], draining[2048], closed[2048], labels[MOST_LENT];

static const struct order label_orders[] = {
    {.first = 1, .second = 18, .n = 0, .rule_more = 1},
    {.first = 1, .second = 18, .n = 13, .rule_more = -2},
    {.first = 1, .second = 18, .n = 260, .rule_more = -3},
    {.first = 1, .second = 19, .n = 0, .job = 2},
    {.first = 1, .second = 19, .n = 13, .job = 0xffffffff},
    {.first = 1, .second = 19, .n = 260, .job = 256},
    {.first = 1, .second = 2, .n = 0, .faults_more = 1},
    {.first = 1, .second = 2, .n = 0, .draining_more = 1},
    {.first = 1, .second = 2, .n = 0, .closed_more = 1},
    {.first = 1, .second = 2, .n = 0, .labels_more = 1},
    {.first = 1, .second = 2, .n = 0, .labels_more = -1},
    {.first = 1, .second = 2, .n = 13, .faults_more = -1, .labels_more = 1},
    {.first = 1, .second = 2, .n = 13, .draining_more = -1024},
    {.first = 1, .second = 2, .n = 13, .closed_more = -1024},
    {.first = 1, .second = 2, .n = 13, .faults_more = -1024,
     .labels_more = -16384},
    {.first = 1, .second = 2, .n = 13, .labels_more = -8192},
    {.first = 1, .second = 3, .n = 257, .fault_byte = 255},
    {.first = 1, .second = 3, .n = 258, .fault_byte = 255},
    {.first = 1, .second = 3, .n = 0, .fault_byte = 255},
    {.first = 1, .second = 3, .n = 257, .draining_byte = 4},
    {.first = 1, .second = 3, .n = 258, .draining_byte = 128},
    {.first = 1, .second = 3, .n = 257, .closed_byte = 4},
    {.first = 1, .second = 3, .n = 258, .closed_byte = 128},
    {.first = 18, .second = 19, .n = 4, .rule_more = 1, .job = 2},
    {.first = 18, .second = 19, .n = 1, .rule_more = -2, .job = 65536},
    {.first = 18, .second = 19, .n = 12, .rule_more = 256, .job = 257},
    {.first = 18, .second = 2, .n = 4, .rule_more = 1, .faults_more = 1},
    {.first = 18, .second = 2, .n = 4, .rule_more = -2, .labels_more = -1},
    {.first = 18, .second = 2, .n = 4, .rule_more = 1, .labels_more = -16},
    {.first = 18, .second = 2, .n = 1, .rule_more = 256, .faults_more = -1},
    {.first = 18, .second = 2, .n = 12, .rule_more = -3, .labels_more = 1},
    {.first = 18, .second = 2, .n = 4, .rule_more = 1, .draining_more = -1},
    {.first = 18, .second = 2, .n = 4, .rule_more = 1, .closed_more = -1},
    {.first = 18, .second = 3, .n = 1, .rule_more = 1, .fault_byte = 4},
    {.first = 18, .second = 3, .n = 2, .rule_more = -2, .fault_byte = 255},
    {.first = 18, .second = 3, .n = 1, .rule_more = 1, .draining_byte = 4},
    {.first = 18, .second = 3, .n = 2, .rule_more = 1, .closed_byte = 16},
    {.first = 19, .second = 2, .n = 4, .job = 2, .faults_more = 1},
    {.first = 19, .second = 2, .n = 4, .job = 3, .draining_more = -1},
    {.first = 19, .second = 2, .n = 4, .job = 256, .closed_more = -1},
    {.first = 19, .second = 2, .n = 4, .job = 257, .closed_more = 1},
    {.first = 19, .second = 2, .n = 4, .job = 65536, .labels_more = -1},
    {.first = 19, .second = 2, .n = 4, .job = 65537, .labels_more = -16},
    {.first = 19, .second = 2, .n = 4, .job = 2, .labels_more = 16},
    {.first = 19, .second = 2, .n = 1, .job = 1u << 31, .labels_more = -4},
    {.first = 19, .second = 2, .n = 12, .job = 0xffffffff, .labels_more = 1},
    {.first = 19, .second = 3, .n = 1, .job = 2, .fault_byte = 4},
    {.first = 19, .second = 3, .n = 2, .job = 256, .draining_byte = 16},
    {.first = 19, .second = 3, .n = 1, .job = 257, .closed_byte = 4},
    {.first = 19, .second = 3, .n = 2, .job = 1u << 31, .closed_byte = 255},
    {.first = 2, .second = 3, .n = 1, .fault_byte = 4, .labels_more = 1},
    {.first = 2, .second = 3, .n = 1, .fault_byte = 128, .labels_more = -1},
    {.first = 2, .second = 3, .n = 1, .fault_byte = 128, .labels_more = -2},
    {.first = 2, .second = 3, .n = 1, .fault_byte = 4, .faults_more = 1},
    {.first = 2, .second = 3, .n = 2, .fault_byte = 16, .labels_more = 1},
    {.first = 2, .second = 3, .n = 2, .fault_byte = 16, .faults_more = 1},
    {.first = 2, .second = 3, .n = 2, .fault_byte = 255, .faults_more = 1,
     .labels_more = -1},
    {.first = 2, .second = 3, .n = 2, .fault_byte = 255, .labels_more = -8},
    {.first = 2, .second = 3, .n = 1, .fault_byte = 255, .faults_more = -1},
    {.first = 2, .second = 3, .n = 1, .fault_byte = 4, .draining_more = 1},
    {.first = 2, .second = 3, .n = 2, .fault_byte = 16, .draining_more = -1},
    {.first = 2, .second = 3, .n = 1, .fault_byte = 4, .closed_more = 1},
    {.first = 2, .second = 3, .n = 2, .fault_byte = 16, .closed_more = -1},
    {.first = 2, .second = 3, .n = 1, .draining_byte = 4, .faults_more = 1},
    {.first = 2, .second = 3, .n = 2, .draining_byte = 16, .draining_more = 1},
    {.first = 2, .second = 3, .n = 2, .draining_byte = 255, .labels_more = 1},
    {.first = 2, .second = 3, .n = 1, .closed_byte = 4, .faults_more = 1},
    {.first = 2, .second = 3, .n = 2, .closed_byte = 16, .draining_more = -1},
    {.first = 2, .second = 3, .n = 2, .closed_byte = 16, .closed_more = 1},
    {.first = 2, .second = 3, .n = 1, .closed_byte = 255, .labels_more = -2},
    {.first = 1, .second = 5, .n = 0, .s = 1},
    {.first = 1, .second = 5, .n = 13, .s = 8192},
    {.first = 1, .second = 5, .n = 260, .s = 16},
    {.first = 1, .second = 5, .n = 257, .s = 0xffffffff},
    {.first = 18, .second = 5, .n = 4, .rule_more = 1, .s = 16},
    {.first = 18, .second = 5, .n = 1, .rule_more = -2, .s = 65536},
    {.first = 19, .second = 5, .n = 4, .job = 2, .s = 16},
    {.first = 19, .second = 5, .n = 12, .job = 256, .s = 4096},
    {.first = 19, .second = 5, .n = 2, .job = 257, .s = 1u << 31},
    {.first = 2, .second = 5, .n = 4, .faults_more = 1, .s = 16},
    {.first = 2, .second = 5, .n = 4, .draining_more = -1, .s = 16},
    {.first = 2, .second = 5, .n = 4, .closed_more = 1, .s = 0xffffffff},
    {.first = 2, .second = 5, .n = 4, .labels_more = -16, .s = 16},
    {.first = 2, .second = 5, .n = 12, .labels_more = 1, .s = 65536},
    {.first = 3, .second = 5, .n = 1, .fault_byte = 4, .s = 2},
    {.first = 3, .second = 5, .n = 2, .draining_byte = 16, .s = 4},
    {.first = 3, .second = 5, .n = 2, .closed_byte = 128, .s = 65536},
    {.first = 3, .second = 5, .n = 1, .closed_byte = 4, .s = 256},
};

static struct label_question tables_of(const struct order *order, uint32_t job)
{
    struct label_question asked = fit_label(order->n & 255, faults, labels);
    memset(faults, order->fault_byte, sizeof faults);
    memset(draining, order->draining_byte, sizeof draining);
    memset(closed, order->closed_byte, sizeof closed);
    asked.n = order->n;
    asked.rule += (uint32_t)order->rule_more;
    asked.job = job;
    asked.faults_len += (size_t)order->faults_more;
    asked.draining = draining;
    asked.draining_len += (size_t)order->draining_more;
    asked.closed = closed;
    asked.closed_len += (size_t)order->closed_more;
    asked.labels_len += (size_t)order->labels_more;
    return asked;
}

static uint64_t label_answer(const struct order *order, uint32_t job)
{
    return check_label(tables_of(order, job));
}

static uint64_t why_answer(const struct order *order, uint32_t job)
{
    return check_why_node(tables_of(order, job), order->s);
}

void check_label_orders(void)
{
    check_order(LABEL, label_answer, label_orders, COUNT(label_orders));
    check_order(WHY_NODE, why_answer, label_orders, COUNT(label_orders));
}
