/*
 * list_numbers.c: lists with numbers of hundreds of digits, and lists that are
 * long. What is due stands here once more.
 */
#include <stdlib.h>
#include <string.h>

#include "cases.h"
#include "check.h"
#include "groups.h"
#include "lent.h"

static uint8_t text[MOST_LENT];
static size_t len;

static void put_text(const void *bytes, size_t count)
{
    memcpy(text + len, bytes, count);
    len += count;
}

static void is_refused(uint32_t n, unsigned refusal, const char *what)
{
    uint32_t got = check_list_alone(n, text, len);
    expect(got == REFUSED(refusal), "n = %u, %s: %08x, where %u is due", n, what,
           got, refusal);
}

/* ---- numbers */

#define MOST_DIGITS 66000u
#define USUAL_DIGITS 700u
static uint8_t low[MOST_DIGITS + 1], high[MOST_DIGITS + 1];

/* Two numbers that are the same; both are far too large. */
static void same_digits(size_t count)
{
    for (size_t k = 0; k < count; k++)
        low[k] = (uint8_t)('1' + random_below(9));
    for (size_t k = 1; k < count; k++)
        if (random_below(3) == 0)
            low[k] = "09"[random_below(2)];
    memcpy(high, low, count);
}

/* The range of these two, before an entry, behind one or alone. */
static void range_is(size_t low_len, size_t high_len, unsigned refusal)
{
    unsigned where = random_below(4);
    len = 0;
    if (where & 1)
        put_text("0-1,", 4);
    put_text(low, low_len);
    put_text("-", 1);
    put_text(high, high_len);
    if (where & 2)
        put_text(",1", 2);
    is_refused(1 + random_below(12), refusal, "a range of long numbers");
}

/* One digit is another one: then one of the two is above the other. */
static void one_digit_more(size_t count, size_t at)
{
    same_digits(count);
    range_is(count, count, 12);
    low[at] = (uint8_t)('1' + random_below(8));
    high[at] = (uint8_t)(low[at] + 1 + random_below((uint32_t)('9' - low[at])));
    range_is(count, count, 12);
    for (size_t k = at + 1; k < count; k++) { /* which do not count */
        low[k] = (uint8_t)('0' + random_below(10));
        high[k] = (uint8_t)('0' + random_below(10));
    }
    range_is(count, count, 12);
    for (size_t k = 0; k < count; k++) {
        uint8_t digit = low[k];
        low[k] = high[k];
        high[k] = digit;
    }
    range_is(count, count, 14);
}

/* The longer one is above the other, whatever its digits. */
static void one_more_digit(size_t count)
{
    same_digits(count);
    memset(high, '9', count);
    low[count] = '0';
    low[0] = '1';
    range_is(count + 1, count, 14);
    memcpy(high, low, count + 1);
    memset(low, '9', count);
    range_is(count, count + 1, 12);
    range_is(1, count, 12);
    range_is(count, 1, 14);
}

/* So many digits more, which are none in the low bits of the count. */
static void many_more_digits(size_t count, size_t more)
{
    memset(low, '1', count + more);
    memset(high, '9', count + more);
    range_is(count + more, count, 14);
    range_is(count, count + more, 12);
    memset(low, '9', count + more);
    memset(high, '1', count + more);
    range_is(count + more, count, 14);
    range_is(count, count + more, 12);
}

void check_long_numbers(void)
{
    begin_group("numbers of up to 66,000 digits in lists");
    for (size_t count = 1; count < 20; count++) {
        many_more_digits(count, 10);
        many_more_digits(count, 256);
        many_more_digits(count, 65536 - count % 2 * 256);
        many_more_digits(count, 65536);
    }
    for (size_t count = 5; count < USUAL_DIGITS; count += 1 + count / 12) {
        one_more_digit(count);
        one_digit_more(count, 0);
        one_digit_more(count, count - 1);
        for (unsigned k = 0; k < 20; k++)
            one_digit_more(count, random_below((uint32_t)count));
        same_digits(count);
        low[0] = '0';
        range_is(count, count, 14);
        range_is(1, count, 12);
        high[0] = '0';
        range_is(1, count, 14);
    }
    end_group();
}

/* Numbers around those at which a sum of so many bits begins anew: below them, and
 * where they are the first of a range up to 1. */
void check_wrapped_numbers(void)
{
    static const char *const around[] = {
        "255", "256", "257", "65535", "65536", "65537", "99999", "100000",
        "2147483647", "2147483648", "2147483649", "4294967295", "4294967296",
        "4294967297", "4294967306", "9223372036854775807",
        "9223372036854775808", "9223372036854775809", "18446744073709551615",
        "18446744073709551616", "18446744073709551617",
        "18446744073709551626", "184467440737095516160",
        "340282366920938463463374607431768211456",
        "340282366920938463463374607431768211457",
        "115792089237316195423570985008687907853269984665640564039457584007913129639936",
    };
    begin_group("numbers that would be nodes once narrowed");
    for (size_t k = 0; k < COUNT(around); k++)
        for (uint32_t n = 1; n <= 12; n++) {
            size_t count = strlen(around[k]);
            if (count == 3 && (unsigned long)atoi(around[k]) < HCUBE_NODES(n))
                continue; /* a node */
            len = 0;
            put_text(around[k], count);
            is_refused(n, 12, around[k]);
            put_text("-1", 2);
            is_refused(n, 14, around[k]);
            len = 0;
            put_text("1-", 2);
            put_text(around[k], count);
            is_refused(n, 12, around[k]);
            put_text(",", 1);
            is_refused(n, 14, around[k]);
        }
    end_group();
}

/* ---- long texts */

/* So many times an entry, with commas between. */
static void repeat(const char *entry, size_t times)
{
    len = 0;
    while (times-- > 0) {
        put_text(entry, strlen(entry));
        put_text(",", 1);
    }
    len--;
}

/* The text at hand is the list of one node; with damage at its end, in its middle
 * and at its start it is none. */
static void one_node(uint32_t n, uint32_t node)
{
    static const char *const bad[] = {",", "-", "x", "-0", ",0-", " "};
    uint8_t faults[HCUBE_FAULT_BYTES_MAX], wanted[HCUBE_FAULT_BYTES_MAX] = {0};
    size_t whole = len, middle = len / 2;
    uint8_t kept = text[middle];
    put_node(wanted, node);
    put_anything(faults, sizeof faults);
    expect(check_list(fit_list(n, text, len, faults)) == 0, "n = %u, %u bytes", n,
           (unsigned)len);
    expect(!memcmp(faults, wanted, HCUBE_FAULT_BYTES(n)), "n = %u, %u bytes: %u",
           n, (unsigned)len, node);
    for (unsigned k = 0; k < COUNT(bad); k++) {
        put_text(bad[k], strlen(bad[k]));
        is_refused(n, 14, bad[k]);
        len = whole;
    }
    text[middle] = 'x';
    is_refused(n, 14, "its middle");
    text[middle] = kept;
    put_text(",4096", 5);
    is_refused(n, 12, "a node too far");
    put_text(",0-", 3);
    is_refused(n, 14, "a node too far, and no list");
    len = whole;
    text[0] = ',';
    is_refused(n, 14, "its start");
}

void check_long_lists(void)
{
    static const size_t times[] = {1, 2, 100, 127, 128, 129, 255, 256, 257, 4095,
                                   4096, 4097, 8191, 16383, 20000};
    begin_group("lists of up to 120,000 bytes");
    for (unsigned k = 0; k < COUNT(times); k++) {
        repeat("1", times[k]);
        one_node(1, 1);
        repeat("3000", times[k]);
        one_node(12, 3000);
        repeat("7-7", times[k]);
        one_node(3 + k % 10, 7);
    }
    len = 0; /* a number of so many digits */
    while (len < 100000)
        put_text("1234567890", 10);
    is_refused(12, 12, "one long number");
    put_text("-1", 2);
    is_refused(12, 14, "one long number to 1");
    end_group();
}
