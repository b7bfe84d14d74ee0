/*
 * listing_cases.c: inputs for the listing program.
 *
 *   listing_cases make DIR   writes DIR/NAME.in and, by the reference,
 *                            DIR/NAME.want for each input; where a number is
 *                            refused, DIR/NAME.last has the last line that is
 *                            due, its place counted when the input was made
 *   listing_cases slow FILE  writes the file's bytes to standard output with
 *                            pauses, as a slow pipe does
 */
#define _DEFAULT_SOURCE /* usleep */
#include <stdio.h>
#include <stdlib.h>
#include <string.h>
#include <unistd.h>

#include "listing_cases.h"
#include "most.h"

uint8_t bytes[ROOM];
size_t len;
size_t places[MOST_PLACES];
static const char *folder;
static unsigned made;

static FILE *open_case(const char *name, const char *ending)
{
    char path[600];
    FILE *file;
    snprintf(path, sizeof path, "%s/%03u-%s.%s", folder, made, name, ending);
    file = fopen(path, "wb");
    if (!file) {
        perror(path);
        exit(2);
    }
    return file;
}

void make(const char *name)
{
    FILE *in = open_case(name, "in"), *want = open_case(name, "want");
    fwrite(bytes, 1, len, in);
    ref_listing(bytes, len, want);
    if (fclose(in) || fclose(want))
        exit(2);
    made++;
}

void make_refused(const char *name, const char *what, unsigned refusal,
                  size_t place)
{
    FILE *last = open_case(name, "last");
    fprintf(last, "%s refused %u %u\n", what, refusal, (unsigned)place);
    if (fclose(last))
        exit(2);
    make(name);
}

void start_text(const char *text, size_t text_len)
{
    memcpy(bytes, text, text_len);
    len = text_len;
}

void add_number(uint32_t value)
{
    len += put_number(value, bytes + len);
}

void start_notice(uint32_t n, unsigned per_mille)
{
    uint8_t faults[MOST_FAULT_BYTES];
    random_faults(n, per_mille, faults);
    len = put_notice(n, faults, bytes, places);
}

/* Starts with the notice of a cube in which these nodes are faulty. */
static void start_faulty(uint32_t n, const uint16_t *nodes, size_t count)
{
    uint8_t faults[MOST_FAULT_BYTES] = {0};
    while (count--)
        put_node(faults, nodes[count]);
    len = put_notice(n, faults, bytes, places);
}

static void add_pair(uint32_t s, uint32_t d)
{
    add_number(s);
    add_number(d);
}

void add_pairs(uint32_t n, unsigned count)
{
    while (count--)
        add_pair(random_below(1u << n), random_below(1u << n));
}

/* ---- groups of cases */

static void good_inputs(void)
{
    START("\x04\x04\x02\x01\x03\x06\x0d\x00\x06\x00\x02\x00");
    make("sample");
    for (uint32_t n = 1; n <= 12; n++) {
        start_notice(n, 0);
        make("no-pairs");
        start_notice(n, 1000);
        add_pairs(n, 5);
        make("all-faulty");
        for (unsigned k = 0; k < 5; k++) {
            start_notice(n, random_density(n));
            add_pairs(n, 1 + random_below(60));
            make("pairs");
        }
    }
}

/* Worked cubes (RULES, Numbers on both sides) with every pair. */
static void worked_cubes(void)
{
    static const struct {
        uint32_t n;
        size_t len;
        const char *notice;
    } cubes[] = {{4, 6, "\x04\x04\x02\x01\x03\x06"}, {3, 5, "\x03\x03\x01\x00\x01"},
                 {1, 3, "\x01\x01\x00"},             {2, 3, "\x02\x01\x01"},
                 {2, 4, "\x02\x02\x01\x00"}};
    for (size_t k = 0; k < COUNT(cubes); k++) {
        memcpy(bytes, cubes[k].notice, cubes[k].len);
        len = cubes[k].len;
        for (uint32_t s = 0; s < 1u << cubes[k].n; s++)
            for (uint32_t d = 0; d < 1u << cubes[k].n; d++)
                add_pair(s, d);
        make("worked");
    }
}

/*
 * The longest walks: n + 1 and n + 2 hops. No walk by the labels of a fault
 * table has more, so 15 and 16 hops are for other label tables only.
 *
 * A walk has two spare hops at most, each to a better label. If it has two, its
 * ends agree in two dimensions: the first leads from a strongly unsafe node a
 * across p to an ordinarily unsafe one, which has a safe neighbour z across a
 * spare dimension q. The neighbours of a across p and q are neighbours of z,
 * and not safe, as a has no safe neighbour; so z's others are safe. The node
 * before a was strongly unsafe too. It did not cross p or q, or it would be a
 * neighbour of z; and what it crossed leads from z to a safe node, of which the
 * same holds. So it goes on back to the source, where p and q are spare.
 */
static void long_walks(void)
{
    for (uint32_t n = 4; n <= 12; n++) {
        uint16_t nodes[2 * 12];
        size_t count = 0;
        uint32_t high = 1u << (n - 1), next = high / 2;
        /* of 0's neighbours only `high` works: around by it */
        for (uint32_t bit = 1; bit < high; bit *= 2)
            nodes[count++] = (uint16_t)bit;
        start_faulty(n, nodes, count);
        add_pair(0, high - 1);
        make("one-more");
        /* only `next` works, and of its neighbours only 0 and next + high */
        count = 0;
        for (uint32_t bit = 1; bit < next; bit *= 2) {
            nodes[count++] = (uint16_t)bit;
            nodes[count++] = (uint16_t)(next + bit);
        }
        nodes[count++] = (uint16_t)high;
        start_faulty(n, nodes, count);
        add_pair(0, next - 1);
        make("two-more");
    }
}

/* The n neighbours of node 0 are faulty, and no node is safe. */
static void none_safe(void)
{
    for (uint32_t n = 2; n <= 12; n++) {
        uint16_t nodes[12];
        for (uint32_t i = 0; i < n; i++)
            nodes[i] = (uint16_t)(1u << i);
        start_faulty(n, nodes, n);
        add_pairs(n, 5);
        make("none-safe");
    }
}

/* The most exchanges known for n = 12. */
static void many_exchanges(void)
{
    const struct most *most = &most_known[COUNT(most_known) - 1];
    start_faulty(most->n, most->nodes, most->count);
    add_pairs(most->n, 200);
    make("many-exchanges");
}

/* Nodes of 2^n and more, up to the greatest number that two groups hold. */
static void far_pairs(void)
{
    for (uint32_t n = 1; n <= 12; n++) {
        start_notice(n, 300);
        for (unsigned k = 0; k < 6; k++) {
            add_number(k % 2 ? random_below(1u << n) : (1u << n) + k * 3);
            add_number(k % 3 ? random_below(16384) : 1u << n);
        }
        add_number(16383);
        add_number(0);
        make("far-pair");
    }
}

/* Around 16,384 bytes, with a good notice and with a bad one. */
static void long_inputs(void)
{
    static const size_t lengths[] = {16383, 16384, 16385, 16386, 32768, 65536,
                                     65540, ROOM};
    for (size_t k = 0; k < COUNT(lengths); k++) {
        start_notice(5, 150);
        while (len < lengths[k])
            bytes[len++] = (uint8_t)random_below(32);
        make("long");
        bytes[0] = 0;
        make("long-refused");
    }
    start_notice(12, 12);
    while (len < 16380)
        add_pairs(12, 1);
    len = 16384;
    make("long-pairs");
    start_notice(12, 1000);
    while (len < 16384)
        bytes[len++] = 0;
    make("long-zeros");
}

static void random_inputs(void)
{
    for (unsigned k = 0; k < 60; k++) {
        len = 1 + random_below(k < 30 ? 8 : 400);
        random_bytes(bytes, len);
        if (k % 3)
            bytes[0] = (uint8_t)(1 + random_below(12));
        if (k % 3 == 2)
            bytes[1] = (uint8_t)random_below(4);
        make("random");
    }
}

static int make_all(const char *where)
{
    folder = where;
    random_seed(7);
    good_inputs();
    worked_cubes();
    long_walks();
    none_safe();
    many_exchanges();
    refused_inputs();
    far_pairs();
    long_inputs();
    random_inputs();
    return 0;
}

/* Short files byte by byte, long ones in parts; the end comes late too. */
static int write_slowly(const char *path)
{
    FILE *file = fopen(path, "rb");
    size_t part, at = 0;
    if (!file)
        return 2;
    len = fread(bytes, 1, ROOM, file);
    fclose(file);
    part = len <= 64 ? 1 : len / 40;
    while (at < len) {
        size_t now = len - at < part ? len - at : part;
        if (write(1, bytes + at, now) != (ssize_t)now)
            return 0; /* the reader has had enough */
        at += now;
        usleep(3000);
    }
    usleep(30000);
    return 0;
}

int main(int count, char **words)
{
    if (count == 3 && !strcmp(words[1], "make"))
        return make_all(words[2]);
    if (count == 3 && !strcmp(words[1], "slow"))
        return write_slowly(words[2]);
    fprintf(stderr, "usage: listing_cases make DIR, or listing_cases slow FILE\n");
    return 2;
}
