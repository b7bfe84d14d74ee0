/*
 * written_refused.c: writing a notice with all that it refuses, in every
 * combination; on random damage; with dimensions that would fit once narrowed; and
 * on buffers that cannot be written to. What is due stands here once more, as in
 * combinations.c.
 */
#include <string.h>

#include "cases.h"
#include "check.h"
#include "combinations.h"
#include "groups.h"
#include "lent.h"

static uint8_t faults[MOST_LENT], out[MOST_LENT];

/* ---- every combination */

/* Of a cube of up to 3 dimensions: dimension, count, and each node in a byte. */
static size_t short_notice(uint8_t table)
{
    size_t len = 2;
    for (; table; table /= 2)
        len += table % 2;
    return len;
}

#define ROOMS 8u
static size_t room_of(unsigned k, size_t len)
{
    const size_t rooms[ROOMS] = {0, 1, 2, len - 2, len - 1, len, len + 1,
                                 HCUBE_NOTICE_BYTES_MAX};
    return rooms[k];
}

/* Bits of nodes, of none where n is 1, of none where it is 1 or 2. */
static unsigned all_writes(unsigned from)
{
    static const uint8_t tables[] = {0, 1, 2, 3, 4, 8, 15, 16, 128, 255};
    struct write_question asked;
    unsigned due = 0, length;
    uint32_t n;
    size_t len;
    number = from;
    n = ANY_OF(dimensions);
    length = part(LENGTHS);
    faults[0] = ANY_OF(tables);
    faults[1] = 255;
    len = short_notice(faults[0]);
    asked = fit_write(n & 255, faults, out);
    asked.n = n;
    asked.faults_len = length_of(length, asked.faults_len);
    asked.out_len = room_of(part(ROOMS), len);
    if (n < 1 || n > 12)
        due = 1;
    else if (length != RIGHT)
        due = 2;
    else if (n < 3 && faults[0] >> (1u << n))
        due = 3;
    else if (asked.out_len < len)
        due = 13;
    if (number == 0)
        is_due("write", from, check_write(asked), due);
    return number;
}

void check_write_combinations(void)
{
    random_bytes(out, sizeof out);
    check_all("writing, all that is refused in every combination", all_writes);
}

/* ---- random damage */

static void damaged_write(void)
{
    uint32_t n = any_dimension(), fitting = 1 + (n - 1) % 12;
    struct write_question asked = fit_write(fitting, faults, out);
    random_faults(fitting, random_density(fitting), faults);
    if (random_below(4) == 0)
        faults[0] |= (uint8_t)(1u << random_below(8));
    asked.n = n;
    if (random_below(8) == 0)
        asked.faults_len = random_below(600);
    if (random_below(2) == 0)
        asked.out_len = random_below(random_below(2) ? 20 : 2 * 4099);
    check_write(asked);
}

void check_write_damaged(void)
{
    begin_group("4,000 damaged tables and short buffers, written");
    random_bytes(out, sizeof out);
    for (unsigned k = 0; k < 4000; k++)
        damaged_write();
    end_group();
}

/* ---- dimensions that would be good once narrowed */

/* Asked with the table of this dimension, of which nobody is faulty. */
static void no_dimension(uint32_t n, uint32_t fitting)
{
    struct write_question asked = fit_write(fitting, faults, out);
    asked.n = n;
    asked.out_len = 4;
    expect(check_write(asked) == REFUSED(1), "write, n = %u", n);
}

void check_write_dimensions(void)
{
    begin_group("dimensions tested before they are narrowed, written");
    random_bytes(out, sizeof out);
    ask_no_dimensions(no_dimension);
    end_group();
}

/* ---- bytes that may only be read: the table, and of what is written to those
 * behind the notice, or all of them where it is refused */

static void leaves_alone(struct write_question asked, uint32_t answer)
{
    static struct lent table, room;
    struct write_question lent = asked;
    uint32_t got;
    lend_to_read(&table, asked.faults, asked.faults_len,
                 random_below(2) ? 0 : random_below(64));
    lend_to_read(&room, asked.out, asked.out_len, HCUBE_VALUE(answer));
    lent.faults = table.bytes;
    lent.out = room.bytes;
    got = ask_write(lent);
    expect(got == answer, "write n=%u, room %u: %08x, not %08x", asked.n,
           (unsigned)asked.out_len, got, answer);
}

static void all_left_alone(uint32_t n)
{
    static size_t places[MOST_PLACES];
    static uint8_t notice[HCUBE_NOTICE_BYTES_MAX];
    struct write_question asked = fit_write(n, faults, out);
    size_t len;
    random_faults(n, random_density(n), faults);
    len = put_notice(n, faults, notice, places);
    asked.out_len = len + random_below(random_below(2) ? 3 : 5000);
    leaves_alone(asked, (uint32_t)len);
    asked.out_len = len - 1;
    leaves_alone(asked, REFUSED(13));
    asked.out_len = random_below((uint32_t)len);
    leaves_alone(asked, REFUSED(13));
    asked.out_len = len;
    asked.n += 16;
    leaves_alone(asked, REFUSED(1));
    asked.n = n;
    asked.faults_len += random_below(2) ? 1 : -(size_t)1;
    leaves_alone(asked, REFUSED(2));
    if (n > 2)
        return;
    asked.faults_len = 1;
    faults[0] |= (uint8_t)(1u << ((1u << n) + random_below(8 - (1u << n))));
    leaves_alone(asked, REFUSED(3));
}

void check_write_left(void)
{
    begin_group("writing, what is only to be read left alone");
    random_bytes(out, sizeof out);
    for (unsigned k = 0; k < 600; k++)
        all_left_alone(1 + k % 12);
    end_group();
}
