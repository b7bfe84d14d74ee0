/*
 * written.c: writing a notice against the reference, and as it is said here: every
 * small table, tables of every shape and density, and buffers of every length.
 */
#include <string.h>

#include "cases.h"
#include "check.h"
#include "groups.h"
#include "lent.h"

static uint8_t faults[HCUBE_FAULT_BYTES_MAX], out[MOST_LENT];
static uint8_t put[HCUBE_NOTICE_BYTES_MAX];
static size_t places[MOST_PLACES];

/* What the buffer holds before: one byte everywhere, or any. Where it is long, this
 * is of its first bytes; the others are any. */
static void fill(size_t len)
{
    static const uint8_t bytes[] = {0x00, 0xff, 0xa5};
    uint32_t k = random_below(COUNT(bytes) + 1);
    if (len > 2 * HCUBE_NOTICE_BYTES_MAX)
        len = 2 * HCUBE_NOTICE_BYTES_MAX;
    if (k < COUNT(bytes))
        memset(out, bytes[k], len);
    else
        put_anything(out, len);
}

/* Writes the table at hand into a buffer of this length; the answer. */
static uint32_t write_into(uint32_t n, size_t room)
{
    struct write_question asked = fit_write(n, faults, out);
    fill(room);
    asked.out_len = room;
    return check_write(asked);
}

/* The table's notice, which does not come from the reference: it has this length,
 * there is just room for it in as many bytes, and a byte less is too few. */
static size_t is_written(uint32_t n)
{
    size_t len = put_notice(n, faults, put, places);
    expect(write_into(n, len - 1) == REFUSED(13), "n = %u: a byte too few", n);
    expect(write_into(n, len) == len, "n = %u: no room in %u", n, (unsigned)len);
    expect(!memcmp(out, put, len), "n = %u: other bytes", n);
    return len;
}

static void put_table(uint32_t n, unsigned bits)
{
    faults[0] = (uint8_t)bits;
    if (n == 4)
        faults[1] = (uint8_t)(bits >> 8);
}

/* ---- every table of n = 1 to 4, with the bits that are no node's */

static void small_table(uint32_t n, unsigned bits)
{
    size_t len;
    put_table(n, bits);
    if (n < 3 && bits >> (1u << n)) {
        for (size_t room = 0; room < 9; room++)
            expect(write_into(n, room) == REFUSED(3), "n = %u, table %02x", n,
                   bits);
        return;
    }
    len = is_written(n);
    if (n == 4)
        return;
    for (size_t room = 0; room <= len + 3; room++)
        for (unsigned k = 0; k < 4; k++)
            write_into(n, room);
}

void check_written(void)
{
    begin_group("every notice of n = 1 to 4 written");
    for (uint32_t n = 1; n <= 4; n++)
        for (unsigned bits = 0; bits < (n == 4 ? 65536u : 256u); bits++)
            small_table(n, bits);
    end_group();
}

/* ---- tables of every shape */

static void clear(void)
{
    memset(faults, 0, sizeof faults);
}

/* Count nodes from first on, each so far from the one before. */
static void put_row(uint32_t first, uint32_t distance, uint32_t count)
{
    clear();
    for (uint32_t k = 0; k < count; k++)
        put_node(faults, first + k * distance);
}

/* Such a row of nodes, and its notice, which is as short to say. In cubes between
 * the small ones and the largest only some are tried. */
static void row_is_written(uint32_t n, uint32_t first, uint32_t distance,
                           uint32_t count)
{
    size_t len = put_number(n, put);
    if (n > 8 && n < 12 && random_below(16) > 0)
        return;
    len += put_number(count, put + len);
    for (uint32_t k = 0; k < count; k++)
        len += put_number(k == 0 ? first : distance - 1, put + len);
    put_row(first, distance, count);
    expect(write_into(n, len + random_below(3)) == len,
           "n = %u, %u nodes from %u on, by %u: not %u bytes", n, count, first,
           distance, (unsigned)len);
    expect(!memcmp(out, put, len), "n = %u, %u nodes from %u on, by %u", n, count,
           first, distance);
}

/* All but one. */
static void all_but(uint32_t n, uint32_t k)
{
    put_row(0, 1, 1u << n);
    faults[k / 8] ^= (uint8_t)(1u << (k % 8));
    is_written(n);
}

/* One node; all but one; two at each distance; as many as each count, the first
 * ones. */
static void each_number(uint32_t n)
{
    uint32_t nodes = 1u << n;
    row_is_written(n, 0, 1, 0);
    for (uint32_t k = 0; k < nodes; k++) {
        row_is_written(n, k, 1, 1);
        if (n <= 8 || k % 128 == 127 || k % 129 == 0)
            all_but(n, k);
        if (k > 0)
            row_is_written(n, random_below(nodes - k), k, 2);
        row_is_written(n, 0, 1, k + 1);
    }
}

/* Rows of nodes at the distances around which a number gets its second group. */
static void distances(uint32_t n)
{
    uint32_t nodes = 1u << n;
    for (uint32_t distance = 126; distance <= 131; distance++) {
        put_row(0, distance, (nodes - 1) / distance + 1);
        is_written(n);
        for (uint32_t first = 126; first <= 130 && first < nodes; first++) {
            put_row(first, distance, (nodes - 1 - first) / distance + 1);
            is_written(n);
        }
    }
}

/* Each count, or in large cubes those around which it gets another high group: of
 * the last nodes, and of any. */
static void counts(uint32_t n)
{
    uint32_t nodes = 1u << n;
    for (uint32_t count = 0; count <= nodes; count++) {
        if (n > 8 && (count + 2) % 128 > 4)
            continue;
        put_row(nodes - count, 1, count);
        is_written(n);
        clear();
        for (uint32_t k = 0, left = count; k < nodes; k++)
            if (random_below(nodes - k) < left) {
                put_node(faults, k);
                left--;
            }
        is_written(n);
    }
}

void check_written_shapes(void)
{
    begin_group("notices of one node, two nodes, and each count written");
    for (uint32_t n = 1; n <= 12; n++) {
        each_number(n);
        distances(n);
        counts(n);
    }
    end_group();
}

/* ---- random tables, and buffers of every length */

/* Lengths near none and near what is needed, and those far from it: in the low bits
 * of some of these there is too little room. */
static void rooms(uint32_t n, int far_too)
{
    size_t len = put_notice(n, faults, put, places);
    const size_t far[] = {2 * len, 256, len + 255, 4099, 65535, 65536,
                          65536 + len - 1, MOST_LENT};
    for (size_t room = 0; room < 4; room++)
        write_into(n, room);
    for (size_t room = len - 2; room <= len + 3; room++)
        expect(write_into(n, room) == (room < len ? REFUSED(13) : len),
               "n = %u, room %u, of %u", n, (unsigned)room, (unsigned)len);
    for (unsigned k = 0; k < (far_too ? COUNT(far) : 4); k++)
        write_into(n, far[k]);
}

void check_written_rooms(void)
{
    begin_group("random notices written into buffers of every length");
    random_bytes(out, sizeof out);
    for (unsigned k = 0; k < 600; k++) {
        uint32_t n = 1 + k % 12;
        random_faults(n, random_density(n), faults);
        rooms(n, k < 60);
    }
    for (uint32_t n = 1; n <= 12; n++) {
        size_t len;
        random_faults(n, n < 9 ? 500 : 30, faults);
        len = put_notice(n, faults, put, places);
        for (size_t room = 0; room < len + 4; room++)
            write_into(n, room);
    }
    end_group();
}
