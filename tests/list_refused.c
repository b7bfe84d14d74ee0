/*
 * list_refused.c: reading list text and writing it with all that they refuse, in
 * every combination; with dimensions that would fit once narrowed; and on buffers
 * that cannot be written to. What is due stands here once more, as in
 * combinations.c.
 */
#include <string.h>

#include "cases.h"
#include "check.h"
#include "combinations.h"
#include "groups.h"
#include "lent.h"

static uint8_t faults[MOST_LENT], out[MOST_LENT];

/* ---- every combination of reading */

/* A text that is no list; else its largest number. */
static const struct {
    const char *text;
    int is_list;
    unsigned last;
} texts[] = {
    {"", 1, 0},      {"0", 1, 0},      {"1", 1, 1},       {"0-1", 1, 1},
    {"1,0", 1, 1},   {"2", 1, 2},      {"2,0", 1, 2},     {"1-3", 1, 3},
    {"4,0-1", 1, 4}, {"7", 1, 7},      {"0-7", 1, 7},     {"8", 1, 8},
    {"8,0", 1, 8},   {"0,8", 1, 8},    {"8-8", 1, 8},     {"9999", 1, 9999},
    {",", 0, 0},     {"0,", 0, 0},     {"1-0", 0, 0},     {"8,", 0, 0},
    {"8-7", 0, 0},   {"0,9-8", 0, 0},  {"9999,0-", 0, 0}, {"00", 0, 0},
    {"0\n", 0, 0},   {"9999 ", 0, 0},
};

static unsigned all_reads(unsigned from)
{
    struct list_question asked;
    unsigned due = 0, length, k;
    uint32_t n;
    number = from;
    n = ANY_OF(dimensions);
    length = part(LENGTHS);
    k = part(COUNT(texts));
    asked = fit_list(n & 255, (const uint8_t *)texts[k].text,
                     strlen(texts[k].text), faults);
    asked.n = n;
    asked.faults_len = length_of(length, asked.faults_len);
    if (n < 1 || n > 12)
        due = 1;
    else if (length != RIGHT)
        due = 2;
    else if (!texts[k].is_list)
        due = 14;
    else if (texts[k].last >= 1u << n)
        due = 12;
    if (number == 0)
        is_due("list", from, check_list(asked), due);
    return number;
}

void check_list_combinations(void)
{
    random_bytes(faults, sizeof faults);
    check_all("reading a list, all that is refused in every combination",
              all_reads);
}

/* ---- every combination of writing, of tables of one byte */

static const struct {
    uint8_t byte;
    size_t len; /* of its text */
} tables[] = {
    {0x00, 0}, {0x01, 1}, {0x02, 1}, {0x03, 3}, {0x04, 1}, {0x05, 3},
    {0x08, 1}, {0x0b, 5}, {0x0f, 3}, {0x10, 1}, {0x80, 1}, {0xff, 3},
    {0xdb, 11},
};

static unsigned all_writes(unsigned from)
{
    struct write_question asked;
    unsigned due = 0, length, table;
    uint32_t n;
    number = from;
    n = ANY_OF(dimensions);
    length = part(LENGTHS);
    table = part(COUNT(tables));
    faults[0] = tables[table].byte;
    memset(faults + 1, 0, 1023); /* of n = 13 */
    asked = fit_write_list(n & 255, faults, out);
    asked.n = n;
    asked.faults_len = length_of(length, asked.faults_len);
    asked.out_len = part(14);
    if (n < 1 || n > 12)
        due = 1;
    else if (length != RIGHT)
        due = 2;
    else if (n < 3 && faults[0] >> (1u << n))
        due = 3;
    else if (asked.out_len < tables[table].len)
        due = 13;
    if (number == 0)
        is_due("write list", from, check_write_list(asked), due);
    return number;
}

void check_write_list_combinations(void)
{
    random_bytes(out, sizeof out);
    check_all("writing a list, all that is refused in every combination",
              all_writes);
}

/* ---- dimensions that would be good once narrowed */

/* Asked with the table of this dimension, of which nobody is faulty. */
static void no_dimension(uint32_t n, uint32_t fitting)
{
    struct list_question read =
        fit_list(fitting, (const uint8_t *)"0-1", 3, out);
    struct write_question written = fit_write_list(fitting, faults, out);
    read.n = written.n = n;
    written.out_len = 4;
    expect(check_list(read) == REFUSED(1), "list, n = %u", n);
    expect(check_write_list(written) == REFUSED(1), "write list, n = %u", n);
}

void check_list_dimensions(void)
{
    begin_group("dimensions tested before they are narrowed, lists");
    random_bytes(out, sizeof out);
    memset(faults, 0, sizeof faults);
    ask_no_dimensions(no_dimension);
    end_group();
}

/* ---- bytes that may only be read */

static struct lent text_lent, table_lent;

/* The text always; the table where it is refused. */
static void read_leaves(struct list_question asked, uint32_t answer)
{
    struct list_question lent = asked;
    uint32_t got;
    lend_to_read(&text_lent, asked.text, asked.text_len, 0);
    lend_to_read(&table_lent, asked.faults, asked.faults_len,
                 answer ? 0 : asked.faults_len);
    lent.text = text_lent.bytes;
    lent.faults = table_lent.bytes;
    got = ask_list(lent);
    expect(got == answer, "list n=%u: %08x, not %08x", asked.n, got, answer);
}

/* The table always; of what is written to the bytes behind the text, or all of them
 * where it is refused. */
static void write_leaves(struct write_question asked, uint32_t answer)
{
    struct write_question lent = asked;
    uint32_t got;
    lend_to_read(&table_lent, asked.faults, asked.faults_len, 0);
    lend_to_read(&text_lent, asked.out, asked.out_len, HCUBE_VALUE(answer));
    lent.faults = table_lent.bytes;
    lent.out = text_lent.bytes;
    got = ask_write_list(lent);
    expect(got == answer, "write list n=%u, room %u: %08x, not %08x", asked.n,
           (unsigned)asked.out_len, got, answer);
}

static void reads_left_alone(uint32_t n)
{
    static uint8_t text[HCUBE_LIST_BYTES_MAX + 8];
    size_t len = put_list(n, faults, text);
    struct list_question asked = fit_list(n, text, len, faults);
    read_leaves(asked, 0);
    asked.n = n + 16;
    read_leaves(asked, REFUSED(1));
    asked.n = n;
    asked.faults_len += random_below(2) ? 1 : -(size_t)1;
    read_leaves(asked, REFUSED(2));
    asked.faults_len = HCUBE_FAULT_BYTES(n);
    memcpy(text + len, len > 0 ? ",9999" : " 9999", 5);
    asked.text_len += 5;
    read_leaves(asked, REFUSED(len > 0 ? 12 : 14));
    text[len + 5] = ',';
    asked.text_len++;
    read_leaves(asked, REFUSED(14));
}

static void writes_left_alone(uint32_t n)
{
    static uint8_t text[HCUBE_LIST_BYTES_MAX];
    size_t len = put_list(n, faults, text);
    struct write_question asked = fit_write_list(n, faults, out);
    asked.out_len = len + random_below(random_below(2) ? 3 : 5000);
    write_leaves(asked, (uint32_t)len);
    if (len > 0) {
        asked.out_len = len - 1;
        write_leaves(asked, REFUSED(13));
        asked.out_len = random_below((uint32_t)len);
        write_leaves(asked, REFUSED(13));
    }
    asked.out_len = len;
    asked.n += 16;
    write_leaves(asked, REFUSED(1));
    asked.n = n;
    asked.faults_len += random_below(2) ? 1 : -(size_t)1;
    write_leaves(asked, REFUSED(2));
    if (n > 2)
        return;
    asked.faults_len = 1;
    faults[0] |= (uint8_t)(1u << ((1u << n) + random_below(8 - (1u << n))));
    write_leaves(asked, REFUSED(3));
}

void check_list_left(void)
{
    begin_group("lists, what is only to be read left alone");
    random_bytes(out, sizeof out);
    for (unsigned k = 0; k < 600; k++) {
        uint32_t n = 1 + k % 12;
        random_faults(n, random_density(n), faults);
        reads_left_alone(n);
        writes_left_alone(n);
    }
    end_group();
}
