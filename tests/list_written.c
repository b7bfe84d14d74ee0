/*
 * list_written.c: writing list text against the reference, and as it is said here:
 * every small table, runs of every place and length, and buffers of every length.
 * What is said here is also read.
 */
#include <string.h>

#include "cases.h"
#include "check.h"
#include "groups.h"
#include "lent.h"

static uint8_t faults[HCUBE_FAULT_BYTES_MAX], out[MOST_LENT];
static uint8_t put[HCUBE_LIST_BYTES_MAX];

/* What the buffer holds before: one byte everywhere, or any. Where it is long, this
 * is of its first bytes; the others are any. */
static void fill(size_t len)
{
    static const uint8_t bytes[] = {0x00, 0xff, ',', '0'};
    uint32_t k = random_below(COUNT(bytes) + 1);
    if (len > 2 * HCUBE_LIST_BYTES_MAX)
        len = 2 * HCUBE_LIST_BYTES_MAX;
    if (k < COUNT(bytes))
        memset(out, bytes[k], len);
    else
        put_anything(out, len);
}

/* Writes the table at hand into a buffer of this length; the answer. */
static uint32_t write_into(uint32_t n, size_t room)
{
    struct write_question asked = fit_write_list(n, faults, out);
    fill(room);
    asked.out_len = room;
    return check_write_list(asked);
}

/* The text at hand, which does not come from the reference, is the table's: there is
 * just room for it in as many bytes, and a byte less is too few. */
static void is_written(uint32_t n, size_t len)
{
    if (len > 0)
        expect(write_into(n, len - 1) == REFUSED(13), "n = %u: a byte too few", n);
    expect(write_into(n, len) == len, "n = %u: no room in %u", n, (unsigned)len);
    expect(!memcmp(out, put, len), "n = %u: other text", n);
    put_anything(out, HCUBE_FAULT_BYTES(n));
    expect(check_list(fit_list(n, put, len, out)) == 0, "n = %u: not read", n);
    expect(!memcmp(out, faults, HCUBE_FAULT_BYTES(n)), "n = %u: read as another",
           n);
}

/* ---- every table of n = 1 to 4, with the bits that are no node's */

static void small_table(uint32_t n, unsigned bits)
{
    static const size_t longest[] = {3, 5, 11, 25};
    size_t len;
    faults[0] = (uint8_t)bits;
    faults[1] = (uint8_t)(bits >> 8);
    if (n < 3 && bits >> (1u << n)) {
        for (size_t room = 0; room < 7; room++)
            expect(write_into(n, room) == REFUSED(3), "n = %u, table %02x", n,
                   bits);
        return;
    }
    len = put_list(n, faults, put);
    expect(len <= longest[n - 1], "n = %u, table %04x: longer", n, bits);
    is_written(n, len);
    if (n == 4)
        return;
    for (size_t room = 0; room <= len + 3; room++)
        for (unsigned k = 0; k < 4; k++)
            write_into(n, room);
}

void check_list_written(void)
{
    begin_group("every list of n = 1 to 4 written");
    for (uint32_t n = 1; n <= 4; n++)
        for (unsigned bits = 0; bits < (n == 4 ? 65536u : 256u); bits++)
            small_table(n, bits);
    end_group();
}

/* ---- runs */

static size_t put_text(size_t at, const char *text)
{
    memcpy(put + at, text, strlen(text));
    return at + strlen(text);
}

static void put_run(uint32_t low, uint32_t high)
{
    for (uint32_t k = low; k <= high; k++)
        put_node(faults, k);
}

static size_t put_range(size_t at, uint32_t low, uint32_t high)
{
    at += put_digits(low, put + at);
    if (low == high)
        return at;
    at = put_text(at, "-");
    return at + put_digits(high, put + at);
}

/* One run alone, and all nodes but those of it. */
static void run_is_written(uint32_t n, uint32_t low, uint32_t high)
{
    uint32_t last = (1u << n) - 1;
    size_t len;
    memset(faults, 0, sizeof faults);
    put_run(low, high);
    is_written(n, put_range(0, low, high));
    memset(faults, 0xff, sizeof faults);
    if (n < 3)
        faults[0] = (uint8_t)((1u << (1u << n)) - 1);
    for (uint32_t k = low; k <= high; k++)
        faults[k / 8] ^= (uint8_t)(1u << (k % 8));
    len = low > 0 ? put_range(0, 0, low - 1) : 0;
    if (high < last) {
        len = len > 0 ? put_text(len, ",") : 0;
        len = put_range(len, high + 1, last);
    }
    is_written(n, len);
}

/* Two runs with one working node between them. */
static void two_runs(uint32_t n, uint32_t middle)
{
    uint32_t last = (1u << n) - 1;
    uint32_t low = middle - 1 - random_below(middle < 4 ? middle : 4);
    uint32_t high = middle + 1 + random_below(last - middle < 4 ? last - middle : 4);
    size_t len;
    memset(faults, 0, sizeof faults);
    put_run(low, middle - 1);
    put_run(middle + 1, high);
    len = put_range(0, low, middle - 1);
    len = put_text(len, ",");
    is_written(n, put_range(len, middle + 1, high));
}

/* Two nodes, each alone. */
static void two_nodes(uint32_t n, uint32_t low, uint32_t high)
{
    size_t len;
    memset(faults, 0, sizeof faults);
    put_node(faults, low);
    put_node(faults, high);
    len = put_range(0, low, low);
    len = put_text(len, ",");
    is_written(n, put_range(len, high, high));
}

/* Each run of small cubes. In larger ones: each node alone, each two, each that
 * begins at 0 or ends at the last node, any, and two nodes of which one is the
 * first or the last. */
void check_list_runs(void)
{
    begin_group("lists of one run, two runs and all but one written");
    for (uint32_t n = 1; n <= 12; n++) {
        uint32_t last = (1u << n) - 1;
        for (uint32_t low = 0; low <= last; low++) {
            for (uint32_t high = low; n < 6 && high <= last; high++)
                run_is_written(n, low, high);
            if (low > 1)
                two_nodes(n, 0, low);
            if (low + 1 < last)
                two_nodes(n, low, last);
            if (n > 8 && n < 12 && random_below(8) > 0)
                continue;
            run_is_written(n, low, low);
            run_is_written(n, 0, low);
            if (random_below(4) == 0 || low % 10 == 9)
                run_is_written(n, low, low + random_below(last - low + 1));
            if (low < last)
                run_is_written(n, low, low + 1);
            if (low > 0 && low < last)
                two_runs(n, low);
        }
    }
    end_group();
}

/* ---- random tables, and buffers of every length */

/* Lengths near none and near what is needed, and those far from it: in the low bits
 * of some of these there is too little room. */
static void rooms(uint32_t n, int far_too)
{
    size_t len = put_list(n, faults, put);
    const size_t far[] = {2 * len, 256, len + 255, HCUBE_LIST_BYTES_MAX, 65535,
                          65536, 65536 + len - 1, MOST_LENT};
    for (size_t room = 0; room < 4; room++)
        write_into(n, room);
    for (size_t room = len < 2 ? 0 : len - 2; room <= len + 3; room++)
        expect(write_into(n, room) == (room < len ? REFUSED(13) : len),
               "n = %u, room %u, of %u", n, (unsigned)room, (unsigned)len);
    for (unsigned k = 0; k < (far_too ? COUNT(far) : 4); k++)
        write_into(n, far[k]);
}

/* The worst table, with a node of it changed. */
static void nearly_worst(uint32_t n)
{
    uint32_t k = random_below(1u << n);
    worst_list(n, faults);
    faults[k / 8] ^= (uint8_t)(1u << (k % 8));
}

void check_list_rooms(void)
{
    begin_group("random lists written into buffers of every length");
    random_bytes(out, sizeof out);
    for (unsigned k = 0; k < 1200; k++) {
        uint32_t n = 1 + k % 12;
        if (k % 3 == 0)
            nearly_worst(n);
        else
            random_faults(n, k % 3 == 1 ? random_below(1001) : random_density(n),
                          faults);
        rooms(n, k < 60);
        is_written(n, put_list(n, faults, put));
    }
    for (uint32_t n = 1; n <= 12; n++) {
        size_t len;
        random_faults(n, n < 9 ? 500 : 30, faults);
        len = put_list(n, faults, put);
        for (size_t room = 0; room < len + 4; room++)
            write_into(n, room);
    }
    end_group();
}
