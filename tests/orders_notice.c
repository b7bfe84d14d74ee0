/*
 * orders_notice.c: for the notice reader, and for writing a notice, inputs to which
 * two refusals apply at once. The reader tests from left to right.
 */
#include <string.h>

#include "cases.h"
#include "check.h"
#include "groups.h"
#include "orders.h"

static uint8_t bytes[512], read[512];

#define BYTES(text) .bytes = text, .len = sizeof text - 1

/* An input with both refusals, the first to be tested first; the place is that
 * of the number which the first is about. */
static const struct {
    unsigned first, second;
    size_t place;
    size_t table; /* length of the fault table: 2 fits n = 4 */
    const char *bytes;
    size_t len;
} notice_orders[] = {
    {.first = 9, .second = 1, .place = 0, .table = 2, BYTES("\x8d")},
    {.first = 9, .second = 1, .place = 0, .table = 2, BYTES("\x80")},
    {.first = 9, .second = 2, .place = 0, .table = 3, BYTES("\x84")},
    {.first = 9, .second = 2, .place = 0, .table = 0, BYTES("")},
    {.first = 10, .second = 1, .place = 0, .table = 2, BYTES("\x8d\x00")},
    {.first = 10, .second = 1, .place = 0, .table = 2, BYTES("\x80\x81")},
    {.first = 10, .second = 2, .place = 0, .table = 3, BYTES("\x84\x00")},
    {.first = 1, .second = 2, .place = 0, .table = 0, BYTES("\x00\x00")},
    {.first = 1, .second = 2, .place = 0, .table = 3, BYTES("\x0d\x00")},
    {.first = 1, .second = 9, .place = 0, .table = 1, BYTES("\x00")},
    {.first = 1, .second = 9, .place = 0, .table = 512, BYTES("\x0d")},
    {.first = 1, .second = 10, .place = 0, .table = 1, BYTES("\x0d\x81\x00")},
    {.first = 1, .second = 11, .place = 0, .table = 1, BYTES("\x00\x02")},
    {.first = 1, .second = 12, .place = 0, .table = 1, BYTES("\x00\x01\x01")},
    {.first = 2, .second = 9, .place = 0, .table = 1, BYTES("\x04")},
    {.first = 2, .second = 9, .place = 0, .table = 3, BYTES("\x04")},
    {.first = 2, .second = 9, .place = 0, .table = 0, BYTES("\x01")},
    {.first = 2, .second = 10, .place = 0, .table = 1, BYTES("\x04\x81\x00")},
    {.first = 2, .second = 11, .place = 0, .table = 3, BYTES("\x04\x11")},
    {.first = 2, .second = 12, .place = 0, .table = 1, BYTES("\x04\x01\x10")},
    {.first = 9, .second = 11, .place = 1, .table = 2, BYTES("\x04\x91")},
    {.first = 10, .second = 11, .place = 1, .table = 2, BYTES("\x04\x91\x00")},
    {.first = 10, .second = 11, .place = 1, .table = 2, BYTES("\x04\xff\xff")},
    {.first = 11, .second = 9, .place = 1, .table = 2, BYTES("\x04\x11")},
    {.first = 11, .second = 10, .place = 1, .table = 2,
     BYTES("\x04\x11\x81\x00")},
    {.first = 11, .second = 12, .place = 1, .table = 2, BYTES("\x04\x11\x10")},
    {.first = 9, .second = 12, .place = 2, .table = 2, BYTES("\x04\x01\x90")},
    {.first = 10, .second = 12, .place = 2, .table = 2,
     BYTES("\x04\x01\x90\x00")},
    {.first = 12, .second = 9, .place = 2, .table = 2, BYTES("\x04\x02\x10")},
    {.first = 12, .second = 10, .place = 2, .table = 2,
     BYTES("\x04\x02\x10\x81\x00")},
    {.first = 10, .second = 9, .place = 2, .table = 2,
     BYTES("\x04\x02\x81\x00")},
    {.first = 12, .second = 9, .place = 3, .table = 2,
     BYTES("\x04\x03\x0f\x00")},
    {.first = 10, .second = 12, .place = 3, .table = 2,
     BYTES("\x04\x02\x01\x81\x80\x10")},
};

void check_notice_orders(void)
{
    begin_group("each order of two refusals, notice");
    for (size_t k = 0; k < COUNT(notice_orders); k++) {
        uint64_t answer;
        memcpy(bytes, notice_orders[k].bytes, notice_orders[k].len);
        random_bytes(read, 512);
        answer = check_notice(bytes, notice_orders[k].len, read,
                              notice_orders[k].table);
        expect(answer == NOTICE_REFUSED(notice_orders[k].first,
                                        notice_orders[k].place),
               "row %u: %016llx, where %u at %u is before %u", (unsigned)k,
               (unsigned long long)answer, notice_orders[k].first,
               (unsigned)notice_orders[k].place, notice_orders[k].second);
    }
    end_group();
}

/* ---- writing. 1 and 3 meet only where n is right once narrowed. The shortest
 * notice has 2 bytes, so that a byte of room is too little for any. */

#define NO_BYTE (-HCUBE_NOTICE_BYTES_MAX)
#define A_BYTE (1 - HCUBE_NOTICE_BYTES_MAX)

static const struct order write_orders[] = {
    {.first = 1, .second = 2, .n = 0, .faults_more = 1},
    {.first = 1, .second = 2, .n = 0, .faults_more = -1},
    {.first = 1, .second = 2, .n = 13, .faults_more = -1},
    {.first = 1, .second = 2, .n = 13, .faults_more = -512},
    {.first = 1, .second = 2, .n = 260, .faults_more = 1},
    {.first = 1, .second = 2, .n = 260, .faults_more = -2},
    {.first = 1, .second = 3, .n = 0, .fault_byte = 255},
    {.first = 1, .second = 3, .n = 257, .fault_byte = 4},
    {.first = 1, .second = 3, .n = 258, .fault_byte = 16},
    {.first = 1, .second = 3, .n = 258, .fault_byte = 255},
    {.first = 1, .second = 13, .n = 0, .out_more = NO_BYTE},
    {.first = 1, .second = 13, .n = 0, .out_more = A_BYTE},
    {.first = 1, .second = 13, .n = 13, .out_more = NO_BYTE},
    {.first = 1, .second = 13, .n = 13, .fault_byte = 255},
    {.first = 1, .second = 13, .n = 260, .out_more = A_BYTE},
    {.first = 1, .second = 13, .n = 268, .fault_byte = 255, .out_more = -1},
    {.first = 2, .second = 3, .n = 1, .fault_byte = 4, .faults_more = 1},
    {.first = 2, .second = 3, .n = 1, .fault_byte = 128, .faults_more = 1},
    {.first = 2, .second = 3, .n = 2, .fault_byte = 16, .faults_more = 1},
    {.first = 2, .second = 3, .n = 2, .fault_byte = 255, .faults_more = 3},
    {.first = 2, .second = 3, .n = 1, .fault_byte = 255, .faults_more = -1},
    {.first = 2, .second = 3, .n = 2, .fault_byte = 255, .faults_more = -1},
    {.first = 2, .second = 13, .n = 1, .faults_more = -1, .out_more = A_BYTE},
    {.first = 2, .second = 13, .n = 1, .faults_more = 1, .out_more = NO_BYTE},
    {.first = 2, .second = 13, .n = 4, .faults_more = 1, .out_more = A_BYTE},
    {.first = 2, .second = 13, .n = 4, .faults_more = -1, .out_more = A_BYTE},
    {.first = 2, .second = 13, .n = 4, .faults_more = -2, .out_more = NO_BYTE},
    {.first = 2, .second = 13, .n = 12, .fault_byte = 255, .faults_more = 1,
     .out_more = -1},
    {.first = 2, .second = 13, .n = 12, .fault_byte = 255, .faults_more = -1,
     .out_more = -3000},
    {.first = 3, .second = 13, .n = 1, .fault_byte = 4, .out_more = NO_BYTE},
    {.first = 3, .second = 13, .n = 1, .fault_byte = 4, .out_more = A_BYTE},
    {.first = 3, .second = 13, .n = 1, .fault_byte = 128, .out_more = A_BYTE},
    {.first = 3, .second = 13, .n = 1, .fault_byte = 255,
     .out_more = A_BYTE + 2},
    {.first = 3, .second = 13, .n = 2, .fault_byte = 16, .out_more = NO_BYTE},
    {.first = 3, .second = 13, .n = 2, .fault_byte = 128, .out_more = A_BYTE},
    {.first = 3, .second = 13, .n = 2, .fault_byte = 255,
     .out_more = A_BYTE + 4},
};

/* It names no job. */
static uint64_t write_answer(const struct order *order, uint32_t job)
{
    static uint8_t faults[2048], out[HCUBE_NOTICE_BYTES_MAX];
    struct write_question asked = fit_write(order->n & 255, faults, out);
    (void)job;
    memset(faults, order->fault_byte, sizeof faults);
    random_bytes(out, HCUBE_NOTICE_BYTES_MAX);
    asked.n = order->n;
    asked.faults_len += (size_t)order->faults_more;
    asked.out_len += (size_t)order->out_more;
    return check_write(asked);
}

void check_write_orders(void)
{
    check_order(WRITE, write_answer, write_orders, COUNT(write_orders));
}
