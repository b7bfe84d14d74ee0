/*
 * lengths.c: labelling, hop and walk, the questions that say why, and writing a
 * notice, on buffers of every kind of length, and what is refused since a length
 * is right in its low 32 bits alone.
 */
#define _DEFAULT_SOURCE /* MAP_ANONYMOUS, MAP_NORESERVE */
#include <string.h>
#include <sys/mman.h>

#include "cases.h"
#include "check.h"
#include "groups.h"
#include "lent.h"
#include "reference.h"

static uint8_t tables[3][MOST_LENT]; /* faults, draining, closed */
static uint8_t labels[MOST_LENT], row[MOST_LENT];

/* Lengths around the exact one; half of a label buffer's is that of one job. The
 * last is far too long. */
static size_t length_number(unsigned k, size_t exact)
{
    const size_t lengths[] = {0, 1, exact / 2, exact - 1, exact, exact + 1,
                              2 * exact, exact + 256, exact + 65536, MOST_LENT};
    return lengths[k];
}
#define LENGTHS 10u

static void lengths_of(uint32_t n, uint32_t job)
{
    struct hop_question hop = fit_hop(n, 0, 1, labels);
    struct walk_question walk = fit_walk(n, 0, 1, labels, row);
    size_t exact = hop.labels_len;
    hop.job = walk.job = job;
    hop.labels = walk.labels = labels;
    for (unsigned a = 0; a < LENGTHS; a++) {
        walk.labels_len = hop.labels_len = length_number(a, exact);
        check_hop(hop);
        for (unsigned b = 0; b < LENGTHS; b++) {
            walk.row_len = length_number(b, ROW_BYTES);
            check_walk(walk);
        }
    }
}

/* Every length of two of the four buffers at once, while the others have the right
 * one: the three tables and the label buffer. */
static void lengths_of_label(uint32_t n, unsigned first, unsigned second)
{
    struct label_question asked = fit_label(n, tables[0], labels);
    size_t *lengths[] = {&asked.faults_len, &asked.draining_len,
                         &asked.closed_len, &asked.labels_len};
    size_t exact_first = *lengths[first], exact_second = *lengths[second];
    asked.draining = tables[1];
    asked.closed = tables[2];
    asked.labels = row;
    for (unsigned k = 0; k < LENGTHS * LENGTHS; k++) {
        random_faults(n, 200, tables[k % 3]);
        asked.job = random_below(2);
        *lengths[first] = length_number(k % LENGTHS, exact_first);
        *lengths[second] = length_number(k / LENGTHS, exact_second);
        check_label(asked);
        if ((k + n) % 3 == 0)
            check_why_node(asked, random_below(2u << n));
    }
}

/* Every kind of length of both buffers; and each length of the table from 0 on that
 * is not the right one, with room for the notice and without. */
static void lengths_of_write(uint32_t n)
{
    struct write_question asked = fit_write(n, tables[0], row);
    size_t exact = asked.faults_len, whole = HCUBE_VALUE(check_write(asked));
    for (unsigned k = 0; k < LENGTHS * LENGTHS; k++) {
        asked.faults_len = length_number(k % LENGTHS, exact);
        asked.out_len = length_number(k / LENGTHS, whole);
        if (asked.faults_len == exact || asked.out_len < 65536)
            check_write(asked);
    }
    for (asked.faults_len = 0; asked.faults_len < 600; asked.faults_len++) {
        if (asked.faults_len == exact)
            continue;
        asked.out_len = asked.faults_len % 2 ? HCUBE_NOTICE_BYTES_MAX : 1;
        expect(check_write(asked) == REFUSED(2), "write n=%u, a table of %u", n,
               (unsigned)asked.faults_len);
    }
}

/* Labelling, and why a node has its label. */
static void is_too_long(struct label_question asked, const char *what)
{
    expect(ask_label(asked) == REFUSED(2), "%s", what);
    expect(ask_why_node(asked, 7) == REFUSED(2), "why, %s", what);
    expect(ask_why_node(asked, 8) == REFUSED(2), "why of no node, %s", what);
}

/* Each buffer of labelling in turn is `big` and too long: n = 3, right in the low
 * 32 bits of its length alone. */
static void label_with(uint8_t *big, size_t beyond)
{
    uint8_t small[HCUBE_LABEL_BYTES(3)] = {0};
    struct label_question label = fit_label(3, small, small), asked = label;
    asked.faults = big;
    asked.faults_len += beyond;
    is_too_long(asked, "fault table");
    asked = label;
    asked.draining = big;
    asked.draining_len += beyond;
    is_too_long(asked, "draining table");
    asked = label;
    asked.closed = big;
    asked.closed_len += beyond;
    is_too_long(asked, "closed table");
    asked = label;
    asked.labels = big;
    asked.labels_len += beyond;
    is_too_long(asked, "label buffer");
}

/* The same for the others. */
static void lengths_with(uint8_t *big, size_t beyond)
{
    uint8_t small[ROW_BYTES] = {0};
    struct hop_question hop = fit_hop(3, 0, 1, small);
    struct walk_question walk = fit_walk(3, 0, 1, small, small);
    hop.labels = big;
    hop.labels_len += beyond;
    expect(ask_hop(hop) == REFUSED(2), "hop");
    expect(ask_why_hop(hop) == REFUSED(2), "why a hop");
    walk.labels = big;
    walk.labels_len += beyond;
    expect(ask_walk(walk) == REFUSED(2), "walk");
    walk = fit_walk(3, 0, 1, small, big);
    walk.row_len += beyond;
    expect(ask_walk(walk) == REFUSED(2), "row");
    big[0] = 3;
    expect(ask_dimension(big, beyond) == 3, "dimension");
    expect(ask_notice(big, beyond, small, 1) == NOTICE_READ(3, 0, 2),
           "notice");
    expect(ask_notice(big, 2, big + 8, beyond + 1) == NOTICE_REFUSED(2, 0),
           "notice's table");
}

/* Writing the notice of node 5 of n = 3: a table that is too long is refused, and
 * what is too long for a notice has room for it. */
static void write_with(uint8_t *big, size_t beyond)
{
    static const uint8_t five[1] = {1 << 5};
    uint8_t small[4] = {0};
    struct write_question asked = fit_write(3, big, small);
    asked.faults_len += beyond;
    asked.out_len = sizeof small;
    expect(ask_write(asked) == REFUSED(2), "writer's table");
    asked = fit_write(3, five, big);
    for (unsigned k = 0; k < 4; k++) {
        asked.out_len = beyond + k;
        expect(ask_write(asked) == 3, "room 2^32 + %u", k);
    }
    asked.out_len = beyond / 2;
    expect(ask_write(asked) == 3, "room 2^31");
    expect(!memcmp(big, "\x03\x01\x05", 3), "another notice of node 5");
    for (size_t k = 3; k < 2 * HCUBE_NOTICE_BYTES_MAX; k++)
        expect(big[k] == 0 && big[beyond - k] == 0, "behind the notice: %u",
               (unsigned)k);
}

static void lengths_beyond_32_bits(void)
{
    size_t beyond = (size_t)1 << 32;
    uint8_t *big = mmap(NULL, beyond + 4096, PROT_READ | PROT_WRITE,
                        MAP_PRIVATE | MAP_ANONYMOUS | MAP_NORESERVE, -1, 0);
    expect(big != MAP_FAILED, "no address space of 4 GiB");
    if (big == MAP_FAILED)
        return;
    for (unsigned k = 0; k < 8; k++) { /* either job, more than once */
        memset(big, 0, 4096);
        label_with(big, beyond);
        lengths_with(big, beyond);
        memset(big, 0, 4096);
        memset(big + beyond, 0, 4096);
        write_with(big, beyond);
    }
    munmap(big, beyond + 4096);
}

void check_lengths(void)
{
    begin_group("lengths from 0 to far too long");
    random_bytes(row, sizeof row);
    memset(labels, 0, sizeof labels);
    for (uint32_t n = 1; n <= 12; n++) {
        for (unsigned k = 0; k < 3; k++)
            random_faults(n, 200, tables[k]);
        lengths_of(n, 0);
        lengths_of(n, 1);
        lengths_of_write(n);
        for (unsigned k = 0; k < 16; k++)
            if (k % 4 < k / 4)
                lengths_of_label(n, k % 4, k / 4);
    }
    lengths_beyond_32_bits();
    end_group();
}
