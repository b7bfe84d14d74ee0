/*
 * written_back.c: what is written is read as what it was written from, whatever
 * stands behind it; and what is read is written as the bytes that it took.
 */
#include <string.h>

#include "cases.h"
#include "check.h"
#include "groups.h"
#include "lent.h"

static uint8_t faults[HCUBE_FAULT_BYTES_MAX], read[HCUBE_FAULT_BYTES_MAX];
static uint8_t bytes[2 * HCUBE_NOTICE_BYTES_MAX], out[HCUBE_NOTICE_BYTES_MAX];

static uint32_t nodes_of(uint32_t n)
{
    uint32_t count = 0;
    for (uint32_t k = 0; k < 1u << n; k++)
        count += (uint32_t)in_table(faults, k);
    return count;
}

/* Writes the table at hand before any bytes, and reads all of them. */
static void there_and_back(uint32_t n)
{
    size_t table = HCUBE_FAULT_BYTES(n);
    struct write_question asked = fit_write(n, faults, bytes);
    uint32_t len;
    uint64_t answer;
    asked.out_len = HCUBE_NODES(n) + 3 + random_below(20);
    put_anything(bytes, asked.out_len);
    len = check_write(asked);
    expect(HCUBE_REFUSAL(len) == 0, "n = %u: %08x", n, len);
    expect(check_dimension(bytes, asked.out_len) == n, "n = %u: another", n);
    put_anything(read, table);
    answer = check_notice(bytes, asked.out_len, read, table);
    expect(answer == NOTICE_READ(n, nodes_of(n), len),
           "n = %u: read as %016llx, written in %u", n,
           (unsigned long long)answer, len);
    expect(!memcmp(read, faults, table), "n = %u: read as another table", n);
}

/* Reads a notice of a row of numbers that was made without a table, and writes what
 * was read. */
static void back_and_there(size_t len)
{
    uint32_t n = bytes[0], answer;
    uint64_t taken;
    put_anything(bytes + len, 40);
    put_anything(read, sizeof read);
    taken = check_notice(bytes, len + 40, read, HCUBE_FAULT_BYTES(n));
    expect(HCUBE_REFUSAL(taken) == 0 && HCUBE_VALUE(taken) == len,
           "n = %u: %016llx, of %u", n, (unsigned long long)taken, (unsigned)len);
    answer = check_write(fit_write(n, read, out));
    expect(answer == len, "n = %u: %08x, of %u", n, answer, (unsigned)len);
    expect(!memcmp(out, bytes, len), "n = %u: other bytes than were read", n);
}

/* Random numbers: how far the next node is, none of them too far. */
static size_t random_row(uint32_t n)
{
    static uint8_t addresses[HCUBE_NODES_MAX];
    uint32_t nodes = 1u << n, most = 1 + random_below(random_below(2) ? nodes : 8);
    uint32_t count = 0, due = 0, wanted = random_below(nodes + 1);
    size_t at = 0, len;
    while (count < wanted) {
        uint32_t number = random_below(most);
        if (number >= nodes - due)
            break;
        at += put_number(number, addresses + at);
        due += number + 1;
        count++;
    }
    len = put_number(n, bytes);
    len += put_number(count, bytes + len);
    memcpy(bytes + len, addresses, at);
    return len + at;
}

void check_written_back(void)
{
    begin_group("notices written and read, read and written");
    for (uint32_t n = 1; n <= 4; n++)
        for (unsigned bits = 0; bits < 1u << (1u << n); bits++) {
            faults[0] = (uint8_t)bits;
            faults[1] = (uint8_t)(bits >> 8);
            there_and_back(n);
        }
    for (unsigned k = 0; k < 2400; k++) {
        uint32_t n = 1 + k % 12;
        random_faults(n, random_density(n), faults);
        there_and_back(n);
        back_and_there(random_row(n));
    }
    end_group();
}
