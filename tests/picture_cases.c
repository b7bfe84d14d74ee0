/*
 * picture_cases.c: cubes to draw, n = 1 to 6, and by the reference what their
 * pictures must show.
 *
 *   picture_cases DIR   writes for each cube DIR/NAME.hex, the notice and the pairs
 *                       as hex text; DIR/NAME.labels, a digit for each node; and
 *                       DIR/NAME.listing, the lines of the listing, of which those of
 *                       the pairs are by K virtual networks where NAME ends in -byK
 */
#include <stdio.h>
#include <stdlib.h>
#include <string.h>

#include "cases.h"
#include "reference.h"

static const char *folder;
static uint32_t n;
static uint8_t faults[8], none[8];

static FILE *open_case(const char *name, const char *ending)
{
    char path[600];
    FILE *file;
    snprintf(path, sizeof path, "%s/%u-%s.%s", folder, (unsigned)n, name, ending);
    file = fopen(path, "w");
    if (!file) {
        perror(path);
        exit(2);
    }
    return file;
}

/* A cube with these faults, and so many pairs of two bytes each. */
static void make(const char *name, const uint8_t *ends, size_t pairs)
{
    uint8_t bytes[80], half[64];
    size_t places[MOST_PLACES], len = put_notice(n, faults, bytes, places);
    FILE *hex = open_case(name, "hex"), *labels = open_case(name, "labels"), *listing = open_case(name, "listing");
    memcpy(bytes + len, ends, 2 * pairs);
    len += 2 * pairs;
    for (size_t i = 0; i < len; i++)
        fprintf(hex, "%02x%c", bytes[i], i + 1 < len ? ' ' : '\n');
    ref_exchanges(n, 3, faults, none, none, half);
    for (uint32_t k = 0; k < 1u << n; k++)
        fprintf(labels, "%u", half[k]);
    ref_listing(bytes, len, listing);
    if (fclose(hex) || fclose(labels) || fclose(listing))
        exit(2);
}

/* The same on a board with so many virtual networks. */
static void make_networks(const char *name, uint32_t networks, const uint8_t *ends, size_t pairs)
{
    char named[40], path[600], head[100];
    uint8_t labels[128], hops[120];
    FILE *listing;
    snprintf(named, sizeof named, "%s-by%u", name, (unsigned)networks);
    make(named, ends, pairs);
    snprintf(path, sizeof path, "%s/%u-%s.listing", folder, (unsigned)n, named);
    listing = fopen(path, "r");
    if (!listing || !fgets(head, sizeof head, listing) || fclose(listing))
        exit(2);
    listing = open_case(named, "listing");
    fputs(head, listing);
    ref_exchanges(n, 3, faults, none, none, labels);
    memcpy(labels + (1u << n), labels, 1u << n);
    for (size_t i = 0; i < pairs; i++) {
        uint32_t s = ends[2 * i], d = ends[2 * i + 1];
        uint32_t answer = ref_walk_networks(n, networks, 0, s, d, labels, ref_label_bytes(n), hops, sizeof hops);
        fprintf(listing, "%u %u ", (unsigned)s, (unsigned)d);
        if (answer >> 24) {
            fprintf(listing, "refused %u\n", (unsigned)(answer >> 24));
            continue;
        }
        fprintf(listing, "%s %u %u", answer >> 16 ? "halted" : "delivered", (unsigned)(answer & 0xffff), (unsigned)s);
        for (uint32_t k = 0; k < (answer & 0xffff); k++)
            fprintf(listing, " %u", (unsigned)(s ^= 1u << (hops[k] & 15)));
        fprintf(listing, " by");
        for (uint32_t k = 0; k < (answer & 0xffff); k++)
            fprintf(listing, " %u", (unsigned)hops[k] >> 4);
        fprintf(listing, "\n");
    }
    if (fclose(listing))
        exit(2);
}

static void clear(void)
{
    memset(faults, 0, sizeof faults);
}

static void fixed(void)
{
    uint8_t last = (uint8_t)((1u << n) - 1), there[] = {0, last}, back[] = {last, 0, 0, last, 0, 0};
    clear();
    make("no-faults", there, 1);
    make("no-pairs", there, 0);
    put_node(faults, 1);
    make("one-fault", back, 3);
    for (uint32_t i = 0; i < n; i++)
        put_node(faults, 1u << i);
    make("round-zero", back, 2);
    for (uint32_t k = 0; k < last; k++)
        put_node(faults, k);
    make("one-works", back, 2);
    put_node(faults, last);
    make("all-faulty", there, 1);
}

/* Two working nodes, if there are any. */
static void random_pair(uint8_t *ends)
{
    for (int i = 0; i < 2; i++) {
        unsigned tries = 1000;
        do
            ends[i] = (uint8_t)random_below(1u << n);
        while (in_table(faults, ends[i]) && tries--);
    }
}

static void random_cubes(void)
{
    static const char *const names[] = {"few", "some", "many", "most"};
    static const unsigned per_mille[] = {100, 200, 350, 600};
    for (size_t i = 0; i < COUNT(names); i++) {
        uint8_t ends[6];
        random_faults(n, per_mille[i], faults);
        for (int j = 0; j < 3; j++)
            random_pair(ends + 2 * j);
        make(names[i], ends, i == 2 ? 3 : 1);
    }
}

static void faulty(const uint8_t *of, size_t count)
{
    clear();
    for (size_t i = 0; i < count; i++)
        put_node(faults, of[i]);
}

/* K4, with the longest of its walks; and as many faults that leave no node safe. */
static void worked(void)
{
    static const uint8_t k4[] = {2, 4, 8, 15}, all_unsafe[] = {0, 3, 12, 15};
    static const uint8_t k4_pairs[] = {14, 0, 0, 14, 6, 0}, halts[] = {5, 8};
    n = 4;
    faulty(k4, COUNT(k4));
    make("k4", k4_pairs, 1);
    make("k4-all", k4_pairs, 3);
    faulty(all_unsafe, COUNT(all_unsafe));
    make("none-safe", halts, 1);
}

/* By networks: a walk that halts where it starts; one that needs three; one that goes back over
 * an edge, one that halts and one from a faulty node; and one that needs four. */
static void by_networks(void)
{
    static const uint8_t three[] = {0, 1, 7, 11}, back[] = {2, 3, 6, 8, 13, 14, 15};
    static const uint8_t four[] = {2, 16, 26, 27, 30, 32, 42, 46, 54, 56, 59, 60};
    static const uint8_t two[] = {1, 2}, two_pairs[] = {0, 3};
    static const uint8_t three_pairs[] = {3, 13}, back_pairs[] = {5, 10, 10, 7, 2, 4}, four_pairs[] = {52, 10};
    n = 2;
    faulty(two, COUNT(two));
    make_networks("two", 5, two_pairs, 1);
    n = 4;
    faulty(three, COUNT(three));
    make_networks("three", 5, three_pairs, 1);
    make_networks("three", 2, three_pairs, 1);
    faulty(back, COUNT(back));
    make_networks("back", 2, back_pairs, 3);
    n = 6;
    faulty(four, COUNT(four));
    make_networks("four", 4, four_pairs, 1);
}

int main(int argc, char **argv)
{
    if (argc != 2)
        return 2;
    folder = argv[1];
    random_seed(22);
    for (n = 1; n <= 6; n++) {
        fixed();
        random_cubes();
    }
    worked();
    by_networks();
    return 0;
}
