/*
 * combinations.c: hop and walk with all that they refuse, in every combination;
 * labelling is in combinations_label.c, and why a hop is taken is asked with
 * each hop, by check.c. Which refusal is due stands here once more, in the
 * order of RULES (Refusal numbers), and is not asked of the reference. That
 * nothing is written then is checked by check.c.
 */
#include "combinations.h"

#include <string.h>

#include "cases.h"
#include "check.h"
#include "groups.h"
#include "lent.h"

const uint32_t dimensions[] = {0, 1, 2, 3, 13, 257, 258};
const uint32_t small_ones[] = {0, 1, 2, 3, 257, 258};
const uint32_t jobs[] = {0,     1,     2,        3,         255, 256, 257,
                         65536, 65537, 1u << 31, 0xffffffff};

unsigned number;

unsigned part(size_t count)
{
    unsigned k = number % (unsigned)count;
    number /= (unsigned)count;
    return k;
}

size_t length_of(unsigned kind, size_t exact)
{
    const size_t lengths[LENGTHS] = {exact, exact - 1, exact + 1,
                                     exact / 2, 0, 2 * exact};
    return lengths[kind];
}

void is_due(const char *what, unsigned from, uint64_t answer, unsigned due)
{
    expect(due ? answer == REFUSED(due) : HCUBE_REFUSAL(answer) == 0,
           "%s, combination %u: %08llx, where %u is due", what, from,
           (unsigned long long)answer, due);
}

void check_all(const char *title, unsigned (*ask)(unsigned from))
{
    unsigned from = 0;
    begin_group(title);
    while (ask(from) == 0)
        from++;
    end_group();
}

void ask_no_dimensions(void (*ask)(uint32_t n, uint32_t fitting))
{
    for (uint32_t fitting = 1; fitting <= 12; fitting++) {
        ask(0, fitting);
        for (uint32_t n = 13; n < 40; n++)
            ask(n, fitting);
        for (unsigned i = 4; i < 32; i++) {
            ask((1u << i) + fitting, fitting);
            ask(0u - (1u << i) + fitting, fitting);
        }
        ask(0u - fitting, fitting);
        ask(0xffffffffu, fitting);
    }
    for (uint32_t n = 40; n < 600; n++)
        ask(n, 1 + n % 12);
}

/* ---- hop and walk */

static uint8_t labels[MOST_LENT], row[MOST_LENT];

/* One of 0, 1 and the last, which is 2^n and no node; of two, 0 or the last. */
static uint32_t any_end(uint32_t n, unsigned count)
{
    unsigned k = part(count);
    return k < count - 1 ? k : 1u << n;
}

/* What is due before a label is looked at, from 0 or a number that is no node. */
static unsigned place_due(uint32_t n, uint32_t job, int wrong_length, uint32_t s,
                          uint32_t d)
{
    if (n < 1 || n > 12)
        return 1;
    if (job > 1)
        return 19;
    if (wrong_length)
        return 2;
    return s != 0 || d >> n ? 5 : 0;
}

/* At 0, by the labels at hand. */
static unsigned hop_due(struct hop_question asked, int wrong_length)
{
    unsigned due =
        place_due(asked.n, asked.job, wrong_length, asked.c, asked.d);
    if (due != 0)
        return due;
    if (labels[0] > LAST_LABEL || labels[1u << (asked.n - 1)] > LAST_LABEL)
        return 4;
    return labels[0] == 3 || (labels[0] == 4 && asked.d != 0) ? 6 : 0;
}

/* From 0, or from 2^n, which is no node, to 0, 1 or 2^n. The label of 0 varies, and
 * it or its last neighbour may have none. */
static unsigned all_hops(unsigned from)
{
    static const uint8_t own[] = {0, 3, 4, LAST_LABEL + 1};
    struct hop_question asked;
    unsigned length;
    uint32_t n, fitting, job, c, d;
    number = from;
    n = ANY_OF(dimensions);
    fitting = n & 255;
    job = ANY_OF(jobs);
    length = part(LENGTHS);
    c = any_end(fitting, 2);
    d = any_end(fitting, 3);
    memset(labels, 0, HCUBE_NODES(fitting));
    if (part(2))
        labels[HCUBE_NODES(fitting) / 2] = 0xff;
    labels[0] = ANY_OF(own);
    asked = fit_hop(fitting, c, d, labels);
    asked.n = n;
    asked.job = job;
    asked.labels = buffer_of(fitting, job, labels);
    asked.labels_len = length_of(length, asked.labels_len);
    if (number == 0)
        is_due("hop", from, check_hop(asked), hop_due(asked, length != RIGHT));
    return number;
}

/* From 0 by the labels at hand, of which the last may be none. */
static unsigned walk_due(struct walk_question asked, int wrong_length)
{
    unsigned due =
        place_due(asked.n, asked.job, wrong_length, asked.s, asked.d);
    if (due != 0)
        return due;
    if (labels[HCUBE_NODES(asked.n) - 1] > LAST_LABEL)
        return 4;
    return labels[0] >= 3 ? 6 : labels[asked.d] == 3 ? 7 : 0;
}

/* The same ends; both their labels vary, and the last byte may be no label. */
static unsigned all_walks(unsigned from)
{
    static const uint8_t of_end[] = {0, 3, 4};
    struct walk_question asked;
    unsigned length, row_length;
    uint32_t n, fitting, job, s, d, last;
    number = from;
    n = ANY_OF(small_ones);
    fitting = n & 255;
    job = ANY_OF(jobs);
    length = part(LENGTHS);
    row_length = part(LONG + 1);
    s = any_end(fitting, 2);
    d = any_end(fitting, 3);
    last = (1u << fitting) - 1;
    memset(labels, 0, HCUBE_NODES(fitting));
    labels[d & last] = ANY_OF(of_end);
    labels[0] = ANY_OF(of_end);
    if (part(2))
        labels[last] = LAST_LABEL + 1;
    asked = fit_walk(fitting, s, d, labels, row);
    asked.n = n;
    asked.job = job;
    asked.labels = buffer_of(fitting, job, labels);
    asked.labels_len = length_of(length, asked.labels_len);
    asked.row_len = length_of(row_length, asked.row_len);
    if (number == 0)
        is_due("walk", from, check_walk(asked),
               walk_due(asked, length != RIGHT || row_length != RIGHT));
    return number;
}

void check_hop_combinations(void)
{
    check_all("hop, all that is refused in every combination", all_hops);
}

void check_walk_combinations(void)
{
    random_bytes(row, sizeof row);
    check_all("walk, all that is refused in every combination", all_walks);
}
