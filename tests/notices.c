/*
 * notices.c: the notice reader against the reference: good notices, cut and damaged
 * ones, and the bounds of each number.
 */
#include <string.h>

#include "cases.h"
#include "check.h"
#include "groups.h"
#include "lent.h"
#include "reference.h"

static uint8_t bytes[MOST_LENT], faults[MOST_LENT], read[MOST_LENT];
static size_t places[MOST_PLACES];

/* A notice of a random table, which is left in `faults`; its length. Where its
 * numbers begin is left in `places`. */
static size_t random_notice(uint32_t n)
{
    random_faults(n, random_density(n), faults);
    return put_notice(n, faults, bytes, places);
}

/* ---- good ones, alone and with more bytes behind them */

static void good_notice(uint32_t n)
{
    size_t len = random_notice(n), table = ref_fault_bytes(n);
    size_t after = random_below(4) ? random_below(40) : 0;
    uint64_t answer;
    random_bytes(bytes + len, after);
    random_bytes(read, table);
    answer = check_notice(bytes, len + after, read, table);
    expect(answer == NOTICE_READ(n, HCUBE_NOTICE_COUNT(answer), len),
           "n = %u: taken %u of %u", n, (unsigned)HCUBE_VALUE(answer),
           (unsigned)len);
    expect(!memcmp(read, faults, table), "n = %u: another table", n);
}

/* Junk, or a good notice in which one byte is another. */
static void bad_notice(uint32_t n)
{
    size_t len = random_notice(n), table = ref_fault_bytes(n);
    if (random_below(3) == 0) {
        len = random_below(12);
        random_bytes(bytes, len);
        if (random_below(2))
            bytes[0] = (uint8_t)n;
    } else {
        bytes[random_below((uint32_t)len)] = (uint8_t)random_bits();
    }
    if (random_below(20) == 0)
        table = random_below(600);
    check_notice(bytes, len, read, table);
}

void check_notices(void)
{
    begin_group("notices with bytes behind them");
    for (unsigned k = 0; k < 6000; k++)
        good_notice(1 + k % 12);
    random_bytes(bytes, MOST_LENT);
    memcpy(bytes, "\x03\x01\x07", 3);
    expect(check_notice(bytes, MOST_LENT, read, 1) == NOTICE_READ(3, 1, 3),
           "long input");
    end_group();
}

void check_damaged_notices(void)
{
    begin_group("damaged notices");
    for (unsigned k = 0; k < 24000; k++)
        bad_notice(1 + k % 12);
    end_group();
}

/* ---- cut at each byte */

/* These bytes alone, where number k is the first that is not whole. */
static void cut_at(size_t cut, size_t k, size_t table)
{
    uint64_t answer = check_notice(bytes, cut, read, table);
    expect(answer == NOTICE_REFUSED(9, places[k]),
           "%u bytes: %016llx, where number %u begins at %u", (unsigned)cut,
           (unsigned long long)answer, (unsigned)k, (unsigned)places[k]);
}

void check_cut_notices(void)
{
    begin_group("notices cut at each byte");
    for (unsigned round = 0; round < 120; round++) {
        uint32_t n = 1 + round % 12;
        size_t len = random_notice(n), table = ref_fault_bytes(n);
        for (size_t k = 0; places[k] < len; k++)
            for (size_t cut = places[k]; cut < places[k + 1]; cut++)
                cut_at(cut, k, table);
        expect(!HCUBE_REFUSAL(check_notice(bytes, len, read, table)),
               "n = %u: all of it", n);
    }
    end_group();
}

/* ---- bounds */

/* A notice of these numbers; the reader's answer. */
static uint64_t answer_to(uint32_t n, uint32_t count, uint32_t first,
                          const uint8_t *rest, size_t rest_len)
{
    size_t at = put_number(n, bytes);
    at += put_number(count, bytes + at);
    at += put_number(first, bytes + at);
    memcpy(bytes + at, rest, rest_len);
    return check_notice(bytes, at + rest_len, read, ref_fault_bytes(n));
}

static void counts_and_addresses(uint32_t n)
{
    static const uint8_t zero[1] = {0}, most[2] = {0xff, 0x7f};
    uint32_t nodes = 1u << n;
    /* the second address stands behind node 2^n - 1 in one or two bytes */
    size_t second = n <= 7 ? 3 : 4;
    random_bytes(read, 512);
    expect(answer_to(n, nodes + 1, 0, zero, 0) == NOTICE_REFUSED(11, 1),
           "count 2^n + 1");
    expect(answer_to(n, 16383, 0, zero, 0) == NOTICE_REFUSED(11, 1),
           "count 16383");
    expect(answer_to(n, 1, nodes - 1, zero, 0) == NOTICE_READ(n, 1, second),
           "address 2^n - 1");
    expect(answer_to(n, 1, nodes, zero, 0) == NOTICE_REFUSED(12, 2),
           "address 2^n");
    expect(answer_to(n, 1, 16383, zero, 0) == NOTICE_REFUSED(12, 2),
           "address 16383");
    expect(HCUBE_REFUSAL(answer_to(n, 2, nodes - 2, zero, 1)) == 0,
           "second 2^n - 1");
    expect(answer_to(n, 2, nodes - 1, zero, 1) == NOTICE_REFUSED(12, second),
           "second 2^n");
    expect(answer_to(n, 2, nodes - 1, most, 2) == NOTICE_REFUSED(12, second),
           "second far away");
}

/* Every node faulty: the first address 0 and then nothing but zeros. */
static void every_node(uint32_t n)
{
    size_t table = ref_fault_bytes(n);
    size_t at = put_number(n, bytes);
    uint32_t nodes = 1u << n;
    at += put_number(nodes, bytes + at);
    memset(bytes + at, 0, nodes);
    memset(read, 0, table);
    expect(check_notice(bytes, at + nodes, read, table) ==
               NOTICE_READ(n, nodes, at + nodes),
           "n = %u: every node", n);
    expect(read[table - 1] == (n < 3 ? (1u << nodes) - 1 : 255), "last byte");
    bytes[at + nodes - 1] = 1;
    expect(check_notice(bytes, at + nodes, read, table) ==
               NOTICE_REFUSED(12, at + nodes - 1),
           "n = %u: the last address is one too far", n);
}

/* Every dimension of one group, and some of two, with no faulty node. */
static void dimensions(void)
{
    for (uint32_t n = 0; n < 16384; n += n < 300 ? 1 : 128) {
        int good = n >= 1 && n <= 12;
        size_t at = put_number(n, bytes), table = good ? ref_fault_bytes(n) : 1;
        bytes[at] = 0;
        expect(check_notice(bytes, at + 1, read, table) ==
                   (good ? NOTICE_READ(n, 0, 2) : NOTICE_REFUSED(1, 0)),
               "dimension %u", n);
    }
}

void check_notice_bounds(void)
{
    begin_group("bounds of dimension, count and address");
    for (uint32_t n = 1; n <= 12; n++) {
        every_node(n);
        counts_and_addresses(n);
    }
    dimensions();
    end_group();
}
