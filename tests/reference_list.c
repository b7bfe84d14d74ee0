/*
 * reference_list.c: list text, by docs/RULES.md, in the most direct C. A text is
 * cut into entries at its commas and these into numbers at their dash; numbers are
 * compared as decimals, place by place; and the nodes that were named are marked in
 * a row, of which the table is made. A table becomes a row of nodes, that becomes
 * runs, and these are printed.
 */
#include "reference.h"

#include <string.h>

/* Longer than the longest text: each run has two numbers and two signs at most. */
#define MOST_TEXT (10 * (MOST_NODES / 2) + 1)

static uint32_t refused(uint32_t refusal)
{
    return refusal * 16777216u;
}

/* ---- reading */

/* A part of the text. */
struct words {
    const uint8_t *bytes;
    size_t len;
};

/* Takes what stands before the first such byte, or all of it where there is none;
 * whether there was one. The rest stands behind it. */
static int cut(struct words *rest, uint8_t byte, struct words *before)
{
    const uint8_t *found =
        rest->len ? memchr(rest->bytes, byte, rest->len) : NULL;
    *before = *rest;
    if (!found)
        return 0;
    before->len = (size_t)(found - rest->bytes);
    rest->bytes = found + 1;
    rest->len -= before->len + 1;
    return 1;
}

static int is_number(struct words number)
{
    for (size_t k = 0; k < number.len; k++)
        if (!memchr("0123456789", number.bytes[k], 10))
            return 0;
    return number.len > 0 && !(number.len > 1 && number.bytes[0] == '0');
}

/* The digit that stands for 10 to this power. */
static int digit(struct words number, size_t power)
{
    return power < number.len ? number.bytes[number.len - 1 - power] - '0' : 0;
}

static int is_less(struct words a, struct words b)
{
    size_t power = a.len > b.len ? a.len : b.len;
    while (power-- > 0)
        if (digit(a, power) != digit(b, power))
            return digit(a, power) < digit(b, power);
    return 0;
}

/* The numbers of an entry, which are the same where it has one; whether it is
 * one. */
static int cut_entry(struct words entry, struct words *low, struct words *high)
{
    struct words rest = entry;
    if (!cut(&rest, '-', low))
        rest = *low;
    *high = rest;
    return is_number(*low) && is_number(*high) && !is_less(*high, *low);
}

static uint32_t value(struct words number)
{
    uint32_t sum = 0, weight = 1;
    for (size_t power = 0; power < number.len; power++, weight *= 10)
        sum += weight * (uint32_t)digit(number, power);
    return sum;
}

/* Marks each node that is named. Whether there is a number that is too large, or -1
 * where the text is no list. */
static int mark(uint32_t n, struct words text, uint8_t *named)
{
    char last[8];
    struct words entry, low, high, most = {(const uint8_t *)last, 0};
    int more = text.len > 0, is_far = 0;
    most.len = (size_t)snprintf(last, sizeof last, "%u", (1u << n) - 1);
    while (more) {
        more = cut(&text, ',', &entry);
        if (!cut_entry(entry, &low, &high))
            return -1;
        if (is_less(most, high))
            is_far = 1;
        else
            memset(named + value(low), 1, value(high) - value(low) + 1);
    }
    return is_far;
}

uint32_t ref_read_list(uint32_t n, const uint8_t *text, size_t text_len,
                       uint8_t *faults, size_t faults_len)
{
    uint8_t named[MOST_NODES] = {0};
    struct words all = {text, text_len};
    int is_far;
    if (n < 1 || n > 12)
        return refused(1);
    if (faults_len != ref_fault_bytes(n))
        return refused(2);
    is_far = mark(n, all, named);
    if (is_far < 0)
        return refused(14);
    if (is_far > 0)
        return refused(12);
    for (size_t k = 0; k < faults_len; k++) {
        faults[k] = 0;
        for (unsigned bit = 0; bit < 8; bit++)
            faults[k] |= (uint8_t)(named[8 * k + bit] << bit);
    }
    return 0;
}

/* ---- writing */

/* The faulty nodes, in rising order; how many. */
static uint32_t list_nodes(uint32_t n, const uint8_t *faults, uint32_t *nodes)
{
    uint32_t count = 0;
    for (uint32_t k = 0; k < (uint32_t)1 << n; k++)
        if (faults[k / 8] / (1u << (k % 8)) % 2 == 1)
            nodes[count++] = k;
    return count;
}

/* Prints the run of nodes that begins at this place of the row, with a comma in
 * front of all but the first; the place behind it. */
static uint32_t print_run(const uint32_t *nodes, uint32_t count, uint32_t at,
                          char *text)
{
    uint32_t next = at + 1;
    while (next < count && nodes[next] == nodes[at] + (next - at))
        next++;
    text += sprintf(text, at > 0 ? ",%u" : "%u", (unsigned)nodes[at]);
    if (next > at + 1)
        sprintf(text, "-%u", (unsigned)nodes[next - 1]);
    return next;
}

uint32_t ref_write_list(uint32_t n, const uint8_t *faults, size_t faults_len,
                        uint8_t *out, size_t out_len)
{
    static uint32_t nodes[MOST_NODES];
    static char text[MOST_TEXT];
    uint32_t count;
    size_t len = 0;
    if (n < 1 || n > 12)
        return refused(1);
    if (faults_len != ref_fault_bytes(n))
        return refused(2);
    if (n < 3 && faults[0] >= 1u << (1u << n))
        return refused(3);
    count = list_nodes(n, faults, nodes);
    text[0] = 0;
    for (uint32_t at = 0; at < count; len += strlen(text + len))
        at = print_run(nodes, count, at, text + len);
    if (len > out_len)
        return refused(13);
    memcpy(out, text, len);
    return (uint32_t)len;
}
