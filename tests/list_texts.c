/*
 * list_texts.c: list text read against the reference, and as it is said here: every
 * short text, random lists, and these with damage. What is due is found by a regular
 * expression and the C library's numbers, and by the nodes that a text was made of.
 */
#define _POSIX_C_SOURCE 200112L /* regex.h */
#include <regex.h>
#include <stdio.h>
#include <stdlib.h>
#include <string.h>

#include "cases.h"
#include "check.h"
#include "groups.h"

#define MOST_TEXT 20000u
static char text[MOST_TEXT];
static size_t len;
static uint8_t faults[HCUBE_FAULT_BYTES_MAX], nodes[HCUBE_FAULT_BYTES_MAX];

/* ---- what is due, of numbers up to 2^64 */

#define A_NUMBER "(0|[1-9][0-9]*)"
#define AN_ENTRY A_NUMBER "(-" A_NUMBER ")?"

static regex_t list;

static void compile_list(void)
{
    static int is_compiled;
    if (is_compiled++)
        return;
    if (regcomp(&list, "^(" AN_ENTRY "(," AN_ENTRY ")*)?$",
                REG_EXTENDED | REG_NOSUB) != 0) {
        fprintf(stderr, "list_texts: no regular expression\n");
        exit(2);
    }
}

/* 0, 12 or 14 of the text at hand, of which a zero byte is left to the caller. */
static unsigned due(uint32_t n)
{
    char *at = text;
    unsigned found = 0;
    text[len] = 0;
    if (regexec(&list, text, 0, NULL, 0) != 0)
        return 14;
    while (at < text + len) {
        unsigned long long low = strtoull(at, &at, 10), high = low;
        if (*at == '-')
            high = strtoull(at + 1, &at, 10);
        if (high < low)
            return 14;
        if (high >= 1ull << n)
            found = 12;
        at++; /* behind the comma, or behind the text */
    }
    return found;
}

/* Reads the text at hand over any bytes; the answer is the one that is due. */
static void is_read(uint32_t n)
{
    unsigned refusal = memchr(text, 0, len) ? 14 : due(n);
    uint32_t got;
    put_anything(faults, HCUBE_FAULT_BYTES(n));
    got = check_list(fit_list(n, (const uint8_t *)text, len, faults));
    expect(got == REFUSED(refusal), "n = %u: %08x, where %u is due", n, got,
           refusal);
}

/* ---- every short text */

/* The text of this number, in the signs: how many of them there are is the base. */
static void put_signs(const char *signs, unsigned long number)
{
    for (size_t k = 0; k < len; k++, number /= strlen(signs))
        text[k] = signs[number % strlen(signs)];
}

/* How many of all texts of this length are lists, refused or not with 12. */
static unsigned long all_of(const char *signs, size_t length, uint32_t n)
{
    unsigned long count = 1, lists = 0;
    len = length;
    for (size_t k = 0; k < length; k++)
        count *= strlen(signs);
    for (unsigned long number = 0; number < count; number++) {
        put_signs(signs, number);
        is_read(n);
        lists += due(n) != 14;
    }
    return lists;
}

/* The lists are counted by hand: of one sign, 0, 1 and 9; of two, the six numbers
 * that do not begin with 0; of three, the 18 of such numbers, 6 ranges, 9 pairs. */
void check_short_texts(void)
{
    static const unsigned long lists[] = {1, 3, 6, 18 + 6 + 9};
    begin_group("every short text read as a list");
    compile_list();
    for (uint32_t n = 1; n <= 12; n++)
        for (size_t length = 0; length <= 4; length++) {
            unsigned long count = all_of("019,- ", length, n);
            if (length < COUNT(lists))
                expect(count == lists[length], "%lu lists of %u signs", count,
                       (unsigned)length);
        }
    for (uint32_t n = 1; n <= 4; n += 3)
        for (size_t length = 5; length <= 6; length++)
            all_of("019,-", length, n);
    all_of("1,-", 9, 4);
    end_group();
}

/* Every byte, alone, before a list, behind it, and in it. */
void check_list_bytes(void)
{
    static const char *const around[] = {"", "0", "1,", "0-", "12", "3,4-"};
    begin_group("every byte in a list");
    compile_list();
    for (unsigned byte = 0; byte < 256; byte++)
        for (size_t a = 0; a < COUNT(around); a++)
            for (size_t b = 0; b < COUNT(around); b++) {
                len = (size_t)sprintf(text, "%s?%s", around[a], around[b]);
                text[strlen(around[a])] = (char)byte;
                is_read(4);
                is_read(1 + (byte + (uint32_t)a) % 12);
            }
    end_group();
}

/* ---- random lists */

static void put_entry(uint32_t low, uint32_t high)
{
    if (len > 0)
        text[len++] = ',';
    len += put_digits(low, (uint8_t *)text + len);
    if (low == high && random_below(4) > 0)
        return;
    text[len++] = '-';
    len += put_digits(high, (uint8_t *)text + len);
}

/* So many entries of nodes, which go to the table: alone, near each other, and any
 * range. */
static void random_list(uint32_t n, unsigned entries)
{
    uint32_t size = 1u << n;
    len = 0;
    memset(nodes, 0, sizeof nodes);
    for (; entries > 0 && len < MOST_TEXT - 20; entries--) {
        uint32_t low = random_below(size), most = size - 1 - low, high = low;
        if (random_below(2) == 0)
            high += random_below(1 + (random_below(8) && most > 9 ? 9 : most));
        for (uint32_t k = low; k <= high; k++)
            put_node(nodes, k);
        put_entry(low, high);
    }
}

static unsigned random_count(void)
{
    static const unsigned most[] = {2, 4, 10, 40, 300, 2500};
    return random_below(most[random_below(random_below(4) ? 4 : 6)]);
}

void check_random_lists(void)
{
    begin_group("12,000 random lists read");
    compile_list();
    for (unsigned k = 0; k < 12000; k++) {
        uint32_t n = 1 + k % 12;
        random_list(n, random_count());
        is_read(n);
        expect(!memcmp(faults, nodes, HCUBE_FAULT_BYTES(n)),
               "n = %u: other nodes than the text was made of", n);
        if (n < 12 && k % 5 == 0) /* a larger cube, and a smaller one */
            is_read(n + 1 + random_below(12 - n));
        if (n > 1 && k % 5 == 1)
            is_read(1 + random_below(n - 1));
    }
    end_group();
}

/* ---- damage */

/* Changes a byte, leaves one out, doubles one, cuts the text, or puts one in. */
static void damage(void)
{
    static const char bytes[] = "0123456789--,,,  \n\t\r+./:;NaA\x7f\x80\xac\xad\xb0\xff";
    size_t at = len ? random_below((uint32_t)len) : 0;
    char byte = bytes[random_below(sizeof bytes)]; /* the zero byte too */
    unsigned how = len ? random_below(5) : 4;
    switch (how) {
    case 0: text[at] = byte; return;
    case 1: len = at; return;
    case 2: memmove(text + at, text + at + 1, --len - at); return;
    }
    memmove(text + at + 1, text + at, len++ - at);
    if (how == 4)
        text[at] = byte;
}

void check_damaged_lists(void)
{
    begin_group("40,000 damaged lists");
    compile_list();
    for (unsigned k = 0; k < 40000; k++) {
        uint32_t n = 1 + k % 12;
        random_list(n, 1 + random_count() % (k % 8 ? 10 : 400));
        for (unsigned times = 1 + random_below(k % 2 ? 1 : 3); times > 0; times--)
            damage();
        is_read(n);
    }
    end_group();
}
