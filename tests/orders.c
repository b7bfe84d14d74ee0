/*
 * orders.c: for hop, why it is taken, and walk, inputs to which two refusals
 * apply at once, and what asks those of labelling (orders_label.c) and of writing
 * a notice (orders_notice.c) too.
 */
#include "orders.h"

#include <string.h>

#include "cases.h"
#include "check.h"
#include "groups.h"
#include "lent.h"

static uint8_t labels[MOST_LENT], row[MOST_LENT];

/* ---- hop. n = 260 is 4 once narrowed. */

static const struct order hop_orders[] = {
    {.first = 1, .second = 19, .n = 0, .job = 2},
    {.first = 1, .second = 19, .n = 260, .d = 1, .job = 256},
    {.first = 1, .second = 2, .n = 0, .labels_more = 1},
    {.first = 1, .second = 2, .n = 13, .labels_more = -1},
    {.first = 1, .second = 2, .n = 13, .labels_more = -16384},
    {.first = 1, .second = 5, .n = 260, .s = 16},
    {.first = 1, .second = 5, .n = 0, .d = 1},
    {.first = 1, .second = 4, .n = 260, .d = 1, .labels = "xxxxxxxxxxxxxxxx"},
    {.first = 1, .second = 4, .n = 0, .labels = "x"},
    {.first = 1, .second = 6, .n = 260, .d = 1, .labels = "3333333333333333"},
    {.first = 1, .second = 6, .n = 0, .labels = "3"},
    {.first = 1, .second = 6, .n = 260, .d = 1, .labels = "4444444444444444"},
    {.first = 19, .second = 2, .n = 2, .job = 2, .labels_more = 1},
    {.first = 19, .second = 2, .n = 2, .job = 257, .labels_more = -1},
    {.first = 19, .second = 2, .n = 2, .job = 65536, .labels_more = -4},
    {.first = 19, .second = 2, .n = 1, .job = 3, .labels_more = 4},
    {.first = 19, .second = 5, .n = 2, .job = 2, .s = 4},
    {.first = 19, .second = 5, .n = 2, .job = 1u << 31, .d = 4},
    {.first = 19, .second = 4, .n = 2, .job = 2, .labels = "xxxx"},
    {.first = 19, .second = 4, .n = 2, .job = 256, .labels = "xxxx"},
    {.first = 19, .second = 6, .n = 2, .job = 257, .d = 1, .labels = "3333"},
    {.first = 19, .second = 6, .n = 2, .job = 256, .d = 1, .labels = "4444"},
    {.first = 2, .second = 5, .n = 2, .s = 4, .labels_more = 1},
    {.first = 2, .second = 5, .n = 2, .d = 4, .labels_more = -1},
    {.first = 2, .second = 5, .n = 2, .d = 4, .labels_more = -4},
    {.first = 2, .second = 4, .n = 2, .d = 1, .labels = "xxxx", .labels_more = 1},
    {.first = 2, .second = 4, .n = 2, .d = 1, .labels = "xxxx", .labels_more = -4},
    {.first = 2, .second = 6, .n = 2, .d = 1, .labels = "3333", .labels_more = 1},
    {.first = 2, .second = 6, .n = 2, .d = 1, .labels = "3333", .labels_more = -1},
    {.first = 2, .second = 6, .n = 2, .d = 1, .labels = "4444", .labels_more = 4},
    {.first = 5, .second = 4, .n = 2, .d = 4, .labels = "xxxx"},
    {.first = 5, .second = 4, .n = 2, .s = 4, .labels = "xxxx"},
    {.first = 5, .second = 6, .n = 2, .d = 4, .labels = "3000"},
    {.first = 5, .second = 6, .n = 2, .s = 4, .labels = "3333"},
    {.first = 5, .second = 6, .n = 2, .d = 4, .labels = "4000"},
    {.first = 4, .second = 6, .n = 2, .d = 3, .labels = "3x00"},
    {.first = 4, .second = 6, .n = 2, .labels = "30x0"},
    {.first = 4, .second = 6, .n = 3, .s = 7, .labels = "00000x03"},
    {.first = 4, .second = 6, .n = 2, .d = 3, .labels = "4x00"},
    {.first = 4, .second = 6, .n = 3, .s = 7, .labels = "000x0004"},
};

/* What the digits do not name is safe. */
const uint8_t *labels_of(const struct order *order, uint32_t job)
{
    const char *digits = order->labels;
    memset(labels, 0, HCUBE_NODES(13));
    for (size_t k = 0; digits && digits[k]; k++)
        labels[k] = (uint8_t)(digits[k] == 'x' ? LAST_LABEL + 1
                                               : digits[k] - '0');
    return buffer_of(order->n & 255, job, labels);
}

static struct hop_question hop_of(const struct order *order, uint32_t job)
{
    struct hop_question asked =
        fit_hop(order->n & 255, order->s, order->d, labels);
    asked.n = order->n;
    asked.job = job;
    asked.labels = labels_of(order, job);
    asked.labels_len += (size_t)order->labels_more;
    return asked;
}

static uint64_t hop_answer(const struct order *order, uint32_t job)
{
    return check_hop(hop_of(order, job));
}

static uint64_t why_hop_answer(const struct order *order, uint32_t job)
{
    return check_why_hop(hop_of(order, job));
}

/* ---- walk. 03300330 swings for ever from 0 to 3, and so does a faulty 8 above
 * it; a node that is one of these once narrowed stands for 5 beside 8. */

static const struct order walk_orders[] = {
    {.first = 1, .second = 19, .n = 0, .job = 2},
    {.first = 1, .second = 19, .n = 260, .d = 1, .job = 257},
    {.first = 1, .second = 2, .n = 0, .labels_more = 1},
    {.first = 1, .second = 2, .n = 0, .row_more = -1},
    {.first = 1, .second = 2, .n = 13, .labels_more = -8192},
    {.first = 1, .second = 5, .n = 260, .s = 16},
    {.first = 1, .second = 5, .n = 260, .d = 16},
    {.first = 1, .second = 4, .n = 260, .d = 1, .labels = "000000000000000x"},
    {.first = 1, .second = 6, .n = 260, .d = 1, .labels = "3000000000000000"},
    {.first = 1, .second = 6, .n = 260, .d = 1, .labels = "4000000000000000"},
    {.first = 1, .second = 7, .n = 260, .d = 1, .labels = "0300000000000000"},
    {.first = 1, .second = 8, .n = 260, .d = 3, .labels = "0330033033333333"},
    {.first = 19, .second = 2, .n = 2, .job = 2, .labels_more = -1},
    {.first = 19, .second = 2, .n = 2, .job = 256, .labels_more = -4},
    {.first = 19, .second = 2, .n = 2, .job = 65537, .row_more = -1},
    {.first = 19, .second = 2, .n = 2, .job = 3, .labels_more = 8},
    {.first = 19, .second = 5, .n = 2, .job = 2, .s = 4},
    {.first = 19, .second = 5, .n = 2, .job = 1u << 31, .d = 4},
    {.first = 19, .second = 4, .n = 2, .job = 2, .labels = "000x"},
    {.first = 19, .second = 4, .n = 2, .job = 256, .labels = "x000"},
    {.first = 19, .second = 6, .n = 2, .job = 257, .d = 1, .labels = "3000"},
    {.first = 19, .second = 6, .n = 2, .job = 65536, .d = 1, .labels = "4000"},
    {.first = 19, .second = 7, .n = 2, .job = 2, .d = 1, .labels = "0300"},
    {.first = 19, .second = 7, .n = 2, .job = 257, .d = 1, .labels = "0300"},
    {.first = 19, .second = 8, .n = 3, .job = 2, .d = 3, .labels = "03300330"},
    {.first = 19, .second = 8, .n = 3, .job = 256, .d = 3, .labels = "03300330"},
    {.first = 2, .second = 5, .n = 2, .s = 4, .labels_more = 1},
    {.first = 2, .second = 5, .n = 2, .s = 4, .row_more = -1},
    {.first = 2, .second = 5, .n = 2, .d = 4, .row_more = 1},
    {.first = 2, .second = 4, .n = 2, .d = 1, .labels = "000x", .labels_more = 1},
    {.first = 2, .second = 4, .n = 2, .d = 1, .labels = "000x", .labels_more = -4},
    {.first = 2, .second = 4, .n = 2, .d = 1, .labels = "000x", .row_more = -1},
    {.first = 2, .second = 6, .n = 2, .d = 1, .labels = "3000", .labels_more = -1},
    {.first = 2, .second = 6, .n = 2, .d = 1, .labels = "3000", .row_more = -34},
    {.first = 2, .second = 6, .n = 2, .labels = "4000", .row_more = -1},
    {.first = 2, .second = 7, .n = 2, .d = 1, .labels = "0300", .labels_more = 8},
    {.first = 2, .second = 7, .n = 2, .d = 1, .labels = "0300", .row_more = 2},
    {.first = 2, .second = 8, .n = 3, .d = 3, .labels = "03300330",
     .labels_more = 1},
    {.first = 2, .second = 8, .n = 3, .d = 3, .labels = "03300330", .row_more = 1},
    {.first = 5, .second = 4, .n = 2, .s = 4, .labels = "000x"},
    {.first = 5, .second = 4, .n = 2, .d = 4, .labels = "x000"},
    {.first = 5, .second = 6, .n = 2, .d = 4, .labels = "3000"},
    {.first = 5, .second = 6, .n = 2, .d = 4, .labels = "4000"},
    {.first = 5, .second = 7, .n = 2, .s = 4, .d = 1, .labels = "0300"},
    {.first = 5, .second = 8, .n = 3, .s = 65536, .d = 3, .labels = "03300330"},
    {.first = 5, .second = 8, .n = 3, .d = 8 + 3, .labels = "03300330"},
    {.first = 4, .second = 6, .n = 2, .d = 1, .labels = "300x"},
    {.first = 4, .second = 6, .n = 2, .labels = "300x"},
    {.first = 4, .second = 6, .n = 2, .d = 1, .labels = "400x"},
    {.first = 4, .second = 6, .n = 2, .labels = "400x"},
    {.first = 4, .second = 7, .n = 2, .d = 1, .labels = "030x"},
    {.first = 4, .second = 8, .n = 3, .d = 3, .labels = "0330033x"},
    {.first = 6, .second = 7, .n = 2, .d = 1, .labels = "3300"},
    {.first = 6, .second = 7, .n = 2, .labels = "3000"},
    {.first = 6, .second = 7, .n = 2, .d = 1, .labels = "4300"},
    {.first = 6, .second = 8, .n = 4, .s = 8, .d = 3, .labels = "0330033033333333"},
    {.first = 6, .second = 8, .n = 4, .s = 8, .d = 3, .labels = "0330033043333333"},
    {.first = 7, .second = 8, .n = 3, .d = 3, .labels = "03330330"},
};

static uint64_t walk_answer(const struct order *order, uint32_t job)
{
    struct walk_question asked =
        fit_walk(order->n & 255, order->s, order->d, labels, row);
    asked.n = order->n;
    asked.job = job;
    asked.labels = labels_of(order, job);
    asked.labels_len += (size_t)order->labels_more;
    asked.row_len += (size_t)order->row_more;
    return check_walk(asked);
}

/* ---- all of them */

static int is_tried(unsigned first, unsigned second, const struct order *orders,
                    size_t count)
{
    for (size_t k = 0; k < count; k++)
        if (orders[k].first == first && orders[k].second == second)
            return 1;
    return 0;
}

void check_order(unsigned question,
                 uint64_t (*answer_to)(const struct order *, uint32_t job),
                 const struct order *orders, size_t count)
{
    const char *name = questions[question].name;
    for (size_t k = 0; k < 2 * count; k++) {
        const struct order *order = &orders[k / 2];
        uint32_t job = order->job ? order->job : k % 2;
        uint64_t answer = answer_to(order, job);
        expect(answer == REFUSED(order->first),
               "%s, job %u: %08llx, where %u is before %u", name, job,
               (unsigned long long)answer, order->first, order->second);
    }
    for (const unsigned *a = questions[question].refusals; *a; a++)
        for (const unsigned *b = a + 1; *b; b++)
            expect(is_tried(*a, *b, orders, count), "%s: %u and %u were not tried",
                   name, *a, *b);
}

void check_orders(void)
{
    begin_group("each order of two refusals");
    memset(row, 0xee, sizeof row);
    check_label_orders();
    check_order(HOP, hop_answer, hop_orders, COUNT(hop_orders));
    check_order(WHY_HOP, why_hop_answer, hop_orders, COUNT(hop_orders));
    check_order(WALK, walk_answer, walk_orders, COUNT(walk_orders));
    check_network_orders();
    check_write_orders();
    check_list_orders();
    check_repair_orders();
    end_group();
}
