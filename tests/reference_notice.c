/*
 * reference_notice.c: the notice and the listing program's output, by
 * docs/RULES.md, in the most direct C.
 */
#include "reference.h"

#include <string.h>

unsigned ref_number(const uint8_t *bytes, size_t len, size_t *place,
                    uint32_t *value)
{
    size_t at = *place;
    if (at >= len)
        return 9;
    if (bytes[at] < 128) {
        *value = bytes[at];
        *place = at + 1;
        return 0;
    }
    if (len - at < 2)
        return 9;
    if (bytes[at + 1] == 0 || bytes[at + 1] >= 128)
        return 10;
    *value = (bytes[at] - 128u) + 128u * bytes[at + 1];
    *place = at + 2;
    return 0;
}

/* Reads the addresses into a table of 2^n bytes, 1 for each faulty node. If it
 * refuses, the place is where the number of that address begins. */
static unsigned read_addresses(const uint8_t *bytes, size_t len, size_t *place,
                               uint32_t n, uint32_t count, uint8_t *faulty)
{
    uint32_t address = 0, value, refusal;
    for (uint32_t k = 0; k < count; k++) {
        size_t begins = *place;
        refusal = ref_number(bytes, len, place, &value);
        if (refusal)
            return refusal;
        address = k == 0 ? value : address + value + 1;
        if (address >= (uint32_t)1 << n) {
            *place = begins;
            return 12;
        }
        faulty[address] = 1;
    }
    return 0;
}

static uint64_t refused(uint64_t refusal, uint64_t place)
{
    return refusal * 16777216u + place;
}

uint32_t ref_notice_dimension(const uint8_t *bytes, size_t len)
{
    size_t place = 0;
    uint32_t n = 0;
    unsigned refusal = ref_number(bytes, len, &place, &n);
    if (!refusal && (n < 1 || n > 12))
        refusal = 1;
    return refusal ? (uint32_t)refused(refusal, 0) : n;
}

uint64_t ref_read_notice(const uint8_t *bytes, size_t len,
                         uint8_t *faults, size_t faults_len)
{
    uint8_t faulty[MOST_NODES] = {0};
    size_t place = 0, count_begins;
    uint32_t n = 0, count = 0;
    unsigned refusal = ref_number(bytes, len, &place, &n);
    if (refusal)
        return refused(refusal, 0);
    if (n < 1 || n > 12)
        return refused(1, 0);
    if (faults_len != ref_fault_bytes(n))
        return refused(2, 0);
    count_begins = place;
    refusal = ref_number(bytes, len, &place, &count);
    if (refusal)
        return refused(refusal, count_begins);
    if (count > (uint32_t)1 << n)
        return refused(11, count_begins);
    refusal = read_addresses(bytes, len, &place, n, count, faulty);
    if (refusal)
        return refused(refusal, place);
    memset(faults, 0, faults_len);
    for (uint32_t k = 0; k < (uint32_t)1 << n; k++)
        if (faulty[k])
            faults[k / 8] |= (uint8_t)(1u << (k % 8));
    return ((uint64_t)n << 48) + ((uint64_t)count << 32) + place;
}

/* ---- the listing program */

static unsigned nodes_with(uint8_t label, uint32_t n, const uint8_t *labels)
{
    unsigned count = 0;
    for (uint32_t k = 0; k < 1u << n; k++)
        if (labels[k] == label)
            count++;
    return count;
}

static void print_first_line(uint32_t n, const uint8_t *labels,
                             unsigned exchanges, FILE *out)
{
    fprintf(out, "cube %u faulty %u safe %u ordinary %u strong %u rounds %u\n",
            (unsigned)n, nodes_with(3, n, labels), nodes_with(0, n, labels),
            nodes_with(1, n, labels), nodes_with(2, n, labels), exchanges);
}

static void print_pair(uint32_t n, uint32_t s, uint32_t d, const uint8_t *labels,
                       FILE *out)
{
    uint8_t row[ROW_BYTES];
    uint32_t answer =
        ref_walk(n, 0, s, d, labels, ref_label_bytes(n), row, sizeof row);
    uint32_t refusal = answer >> 24, hops = answer & 0xffff;
    fprintf(out, "%u %u ", (unsigned)s, (unsigned)d);
    if (refusal) {
        fprintf(out, "refused %u\n", (unsigned)refusal);
        return;
    }
    fprintf(out, "%s %u", answer >> 16 & 255 ? "halted" : "delivered",
            (unsigned)hops);
    for (uint32_t k = 0; k <= hops; k++)
        fprintf(out, " %u", row[2 * k] + 256u * row[2 * k + 1]);
    fprintf(out, "\n");
}

static void print_pairs(const uint8_t *bytes, size_t len, size_t place,
                        uint32_t n, const uint8_t *labels, FILE *out)
{
    while (place < len) {
        uint32_t s = 0, d = 0;
        unsigned refusal = ref_number(bytes, len, &place, &s);
        if (!refusal)
            refusal = ref_number(bytes, len, &place, &d);
        if (refusal) {
            fprintf(out, "input refused %u %u\n", refusal, (unsigned)place);
            return;
        }
        print_pair(n, s, d, labels, out);
    }
}

void ref_listing(const uint8_t *bytes, size_t len, FILE *out)
{
    static const uint8_t none[MOST_FAULT_BYTES];
    uint8_t faults[MOST_FAULT_BYTES], labels[MOST_LABEL_BYTES];
    uint32_t n = 0;
    size_t place = 0;
    uint64_t notice;
    unsigned refusal;
    if (len > MOST_INPUT) {
        fprintf(out, "input too long\n");
        return;
    }
    /* the dimension alone first: the fault table is lent at its length */
    if (ref_number(bytes, len, &place, &n) || n < 1 || n > 12)
        n = 1;
    notice = ref_read_notice(bytes, len, faults, ref_fault_bytes(n));
    refusal = (unsigned)(notice >> 24 & 255);
    place = notice & 0xffff; /* of the number refused, or behind the notice */
    if (refusal) {
        fprintf(out, "notice refused %u %u\n", refusal, (unsigned)place);
        return;
    }
    /* job 0, whose half stands first; no node is draining or closed */
    print_first_line(n, labels, ref_exchanges(n, 3, faults, none, none, labels),
                     out);
    print_pairs(bytes, len, place, n, labels, out);
}
