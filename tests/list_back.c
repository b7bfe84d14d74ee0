/*
 * list_back.c: what is written as list text is read as the table that it was
 * written from; and what was read, from any text, is written as the one text of its
 * table, which is never longer.
 */
#include <string.h>

#include "cases.h"
#include "check.h"
#include "groups.h"
#include "lent.h"

static uint8_t faults[HCUBE_FAULT_BYTES_MAX], read[HCUBE_FAULT_BYTES_MAX];
static uint8_t text[2 * HCUBE_LIST_BYTES_MAX], out[HCUBE_LIST_BYTES_MAX];

/* Writes the table at hand before any bytes, and reads what was written. */
static void there_and_back(uint32_t n)
{
    size_t table = HCUBE_FAULT_BYTES(n);
    struct write_question asked = fit_write_list(n, faults, text);
    uint32_t len, answer;
    asked.out_len = HCUBE_LIST_BYTES_MAX + random_below(20);
    if (n < 9)
        asked.out_len = 609 + random_below(20); /* n = 8 has none longer */
    put_anything(text, asked.out_len);
    len = check_write_list(asked);
    expect(HCUBE_REFUSAL(len) == 0, "n = %u: %08x", n, len);
    put_anything(read, table);
    answer = check_list(fit_list(n, text, len, read));
    expect(answer == 0, "n = %u: %08x", n, answer);
    expect(!memcmp(read, faults, table), "n = %u: read as another table", n);
}

/* Reads a text of nodes in any order, some of them twice, and writes what was
 * read. */
static void back_and_there(uint32_t n, unsigned entries)
{
    size_t len = 0;
    uint32_t written, again;
    for (unsigned k = 0; k < entries; k++) {
        if (len > 0)
            text[len++] = ',';
        len += put_digits(random_below(1u << n), text + len);
    }
    put_anything(read, sizeof read);
    again = check_list(fit_list(n, text, len, read));
    expect(again == 0, "n = %u, %u nodes: %08x", n, entries, again);
    written = check_write_list(fit_write_list(n, read, out));
    expect(written <= len, "n = %u: %u bytes, of %u", n, written, (unsigned)len);
    expect(put_list(n, read, text) == written && !memcmp(text, out, written),
           "n = %u: other text than the table's", n);
}

void check_list_back(void)
{
    begin_group("lists there and back, and back and there");
    for (uint32_t n = 1; n <= 4; n++)
        for (unsigned bits = 0; bits < 1u << (1u << n); bits++) {
            faults[0] = (uint8_t)bits;
            faults[1] = (uint8_t)(bits >> 8);
            if (n < 4 || bits % 7 == 0)
                there_and_back(n);
        }
    for (unsigned k = 0; k < 2400; k++) {
        uint32_t n = 1 + k % 12;
        random_faults(n, k % 2 ? random_density(n) : random_below(1001), faults);
        there_and_back(n);
        back_and_there(n, random_below(k % 4 ? 20 : 2000));
    }
    for (uint32_t n = 1; n <= 12; n++) {
        worst_list(n, faults);
        there_and_back(n);
    }
    end_group();
}
