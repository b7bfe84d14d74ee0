/*
 * long_notices.c: a notice of 300 numbers, damaged at each of them in turn, and
 * the longest notice, damaged at its last number. Where the numbers begin is
 * counted when they are put there; no reader is asked for it.
 */
#include <string.h>

#include "cases.h"
#include "check.h"
#include "groups.h"
#include "lent.h"

#define NODES 4096u /* n = 12 */
#define TABLE 512u

static uint8_t bytes[MOST_LENT];

/* ---- 300 numbers, each of them damaged in turn */

#define NUMBERS 300u

static uint8_t whole[2 * NUMBERS];
static size_t places[NUMBERS + 1]; /* where each begins, and the length */
static uint32_t too_far[NUMBERS];  /* least number that is no address there */

/* Dimension, count, and addresses of which every 27th, the first and the last
 * among them, takes two bytes. */
static uint32_t number(size_t k)
{
    if (k == 0)
        return 12;
    if (k == 1)
        return NUMBERS - 2;
    return (uint32_t)(k % 27 == 2 ? 128 + k % 7 : k % 4);
}

static void put_whole(void)
{
    uint32_t due = 0;
    size_t at = 0;
    for (size_t k = 0; k < NUMBERS; k++) {
        places[k] = at;
        at += put_number(number(k), whole + at);
        if (k < 2)
            continue;
        too_far[k] = NODES - due;
        due += number(k) + 1;
    }
    places[NUMBERS] = at;
}

static void refused_at(size_t len, size_t table_len, unsigned refusal,
                       size_t place)
{
    uint64_t answer = check_notice_alone(bytes, len, table_len);
    expect(answer == NOTICE_REFUSED(refusal, place),
           "%u bytes: %016llx, not %u at %u", (unsigned)len,
           (unsigned long long)answer, refusal, (unsigned)place);
}

/* The notice up to number k, these bytes in place of it, any bytes behind them:
 * this refusal at k. Beside a table of another length it is 2 at the dimension,
 * but for what is wrong with the dimension itself. */
static void damaged(size_t k, const uint8_t *instead, size_t len, size_t behind,
                    unsigned refusal)
{
    unsigned before = k == 0 ? refusal : 2;
    memcpy(bytes, whole, places[k]);
    memcpy(bytes + places[k], instead, len);
    random_bytes(bytes + places[k] + len, behind);
    len += places[k] + behind;
    refused_at(len, TABLE, refusal, places[k]);
    refused_at(len, TABLE - 1, before, 0);
    refused_at(len, TABLE + 1, before, 0);
}

/* The end before the number or within it; a second group that is none. */
static void ill_written(size_t k)
{
    static const uint8_t seconds[] = {0, 128, 129, 255};
    uint8_t groups[2];
    groups[0] = (uint8_t)(whole[places[k]] | 128);
    damaged(k, groups, 0, 0, 9);
    damaged(k, groups, 1, 0, 9);
    for (unsigned s = 0; s < COUNT(seconds); s++) {
        groups[1] = seconds[s];
        damaged(k, groups, 2, 0, 10);
        damaged(k, groups, 2, 40, 10);
    }
}

static void bad_value(size_t k, uint32_t value)
{
    uint8_t groups[2];
    size_t len = put_number(value, groups);
    damaged(k, groups, len, 0, k == 0 ? 1 : k == 1 ? 11 : 12);
    damaged(k, groups, len, 40, k == 0 ? 1 : k == 1 ? 11 : 12);
}

void check_long_notices(void)
{
    begin_group("notice of 300 numbers, damaged at each in turn");
    put_whole();
    for (size_t k = 0; k < NUMBERS; k++) {
        ill_written(k);
        bad_value(k, 16383);
        bad_value(k, k == 0 ? 13 : k == 1 ? NODES + 1 : too_far[k]);
    }
    bad_value(0, 0);
    memcpy(bytes, whole, places[NUMBERS]);
    refused_at(places[NUMBERS], TABLE - 1, 2, 0);
    expect(check_notice_alone(bytes, places[NUMBERS], TABLE) ==
               NOTICE_READ(12, NUMBERS - 2, places[NUMBERS]),
           "undamaged");
    end_group();
}

/* ---- the last place that there is: of 4096 addresses in one byte each */

#define LAST 4098u

/* 4095 times 0, and then these bytes. */
static uint64_t ends_with(const char *end, size_t len)
{
    memcpy(bytes, "\x0c\x80\x20", 3);
    memset(bytes + 3, 0, NODES - 1);
    memcpy(bytes + LAST, end, len);
    return check_notice_alone(bytes, LAST + len, TABLE);
}

void check_last_place(void)
{
    begin_group("last place of the longest notice");
    expect(ends_with("", 0) == NOTICE_REFUSED(9, LAST), "nothing");
    expect(ends_with("\x81", 1) == NOTICE_REFUSED(9, LAST), "81");
    expect(ends_with("\x81\x00", 2) == NOTICE_REFUSED(10, LAST), "81 00");
    expect(ends_with("\x81\x81", 2) == NOTICE_REFUSED(10, LAST), "81 81");
    expect(ends_with("\x01", 1) == NOTICE_REFUSED(12, LAST), "01");
    expect(ends_with("\xff\x7f", 2) == NOTICE_REFUSED(12, LAST), "FF 7F");
    expect(ends_with("\x00", 1) == NOTICE_READ(12, NODES, LAST + 1), "00");
    end_group();
}
