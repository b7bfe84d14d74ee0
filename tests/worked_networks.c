/*
 * worked_networks.c: worked hops and walks by virtual networks (RULES, Virtual networks),
 * each with its labels and its answer as literal numbers.
 */
#include <string.h>

#include "cases.h"
#include "check.h"
#include "groups.h"

#define HOPS(network, dimension) (0x10000u + 16 * (network) + (dimension))
#define DELIVERED 0u
#define HALTED 0x20000u

static uint8_t labels[32];

static void put_digits_of(const char *digits)
{
    for (size_t k = 0; digits[k]; k++)
        labels[k] = (uint8_t)(digits[k] - '0');
}

/* Hops of n = 4, one for each way that a decision can go: labels, destination, network
 * and direction, node, answer on a board with five networks. */
static const struct hop_row {
    const char *labels;
    uint32_t d, network, down, c, answer;
} hop_rows[] = {
    {"2221222122112211", 4, 1, 0, 4, DELIVERED},
    {"4400401114424011", 1, 2, 0, 3, HOPS(2, 1)}, /* to a draining node */
    {"0421111413404023", 9, 2, 0, 3, HOPS(2, 3)}, /* block 1 */
    {"3144340131001314", 2, 0, 0, 14, HOPS(0, 2)}, /* block 2, from up to down */
    {"1132101003242031", 13, 0, 1, 12, HOPS(1, 0)}, /* block 2, from down to up */
    {"2121222212121212", 13, 2, 0, 2, HOPS(2, 0)}, /* block 3 */
    {"1212211222212112", 3, 1, 0, 13, HOPS(1, 3)}, /* block 4 */
    {"1221211111212222", 14, 1, 1, 4, HOPS(2, 1)}, /* block 4, from down to up */
    {"2322233323222233", 1, 1, 0, 12, HOPS(1, 0)}, /* block 5 */
    {"2232223332223232", 10, 2, 0, 4, HOPS(2, 2)}, /* block 6 */
    {"3312212121332131", 8, 1, 1, 4, HOPS(2, 3)}, /* block 6, from down to up */
    {"2410234202414244", 12, 2, 1, 2, HOPS(3, 0)}, /* spare, block 2 */
    {"1121121121221121", 14, 2, 1, 9, HOPS(2, 3)}, /* ended at 4; spare, block 3 */
    {"3233232221232213", 6, 0, 1, 8, HOPS(1, 0)}, /* ended at 6; spare, block 4 */
    {"2113221122311323", 5, 1, 0, 11, HALTED},
    {"2332111323311132", 3, 2, 1, 4, HALTED}, /* both calls end at block 4 */
    /* the hop home: on upwards, from down to up, from up to down, on downwards */
    {"0400000000000000", 1, 3, 0, 0, HOPS(3, 0)},
    {"0400000000000000", 1, 3, 1, 0, HOPS(4, 0)},
    {"4000000000000000", 0, 3, 0, 8, HOPS(3, 3)},
    {"4000000000000000", 0, 3, 1, 8, HOPS(3, 3)},
    {"0400000000000000", 1, 4, 1, 0, REFUSED(16)},
    /* block 2 needs a sixth network; the ordinary node below is not tried in its place,
     * by block 3, where a safe one is taken by block 1 */
    {"1000000000000000", 1, 4, 1, 8, REFUSED(16)},
    {"1000000000000000", 1, 3, 1, 8, HOPS(4, 0)},
    {"0000000000000000", 1, 4, 1, 8, HOPS(4, 3)},
    {"0000000000000000", 9, 4, 1, 8, REFUSED(16)}, /* nor one aside */
    {"0000000000000000", 9, 3, 1, 8, HOPS(4, 0)},
    {"1111111111111111", 1, 4, 1, 0, REFUSED(16)},
    /* block 4 from down to up: in network 0, or where two hops are to go */
    {"2111111121111111", 7, 0, 1, 0, HOPS(1, 0)},
    {"2111111121111111", 7, 1, 1, 0, HALTED},
    {"2111111121111111", 3, 1, 1, 0, HOPS(2, 0)},
    /* where it may not hop, block 5 is not tried, which would go on downwards */
    {"2333333321333333", 7, 1, 1, 8, HALTED},
    {"2333333321333333", 7, 0, 1, 8, HOPS(1, 0)},
    {"2333333323333333", 7, 1, 1, 8, HOPS(1, 3)},
    /* block 6 from down to up: where two hops are to go, in network 0 too */
    {"2222222222222222", 7, 0, 1, 0, HALTED},
    {"2222222222222222", 3, 0, 1, 0, HOPS(1, 0)},
    {"2222222222222222", 7, 0, 0, 0, HOPS(0, 0)},
    {"1222222222222222", 7, 0, 0, 0, HALTED},
    {"1222222222222222", 3, 0, 0, 0, HOPS(0, 0)},
    /* strongly unsafe, aside too */
    {"2330322222222222", 7, 0, 0, 0, HOPS(0, 3)},
    {"3000000000000000", 1, 0, 0, 0, REFUSED(6)},
    {"4000000000000000", 1, 0, 0, 0, REFUSED(6)},
    {"4000000000000000", 0, 0, 0, 0, DELIVERED},
    {"0000000050000000", 1, 0, 0, 0, REFUSED(4)},
    {"0000000000000005", 1, 0, 0, 0, HOPS(0, 0)},
};

/* Walks: labels, networks, source, destination, answer, hops. */
static const struct walk_row {
    uint32_t n;
    const char *labels;
    uint32_t networks, s, d, answer;
    const char *hops; /* network and dimension in hex, behind each other */
} walk_rows[] = {
    {2, "0003", 1, 2, 1, REFUSED(16), ""},
    {2, "0003", 2, 2, 1, 2, "0110"},
    {2, "0003", 5, 2, 1, 2, "0110"},
    {2, "0403", 1, 2, 1, REFUSED(16), ""},
    {2, "0403", 2, 2, 1, 2, "0110"},
    {2, "0000", 1, 2, 1, 2, "0001"}, /* up first */
    {2, "0000", 1, 1, 2, 2, "0100"},
    {2, "0330", 5, 0, 3, 0x10000, ""},
    {2, "0440", 5, 0, 3, 0x10000, ""},
    {2, "0440", 1, 0, 2, 1, "01"},
    {1, "00", 1, 0, 1, 1, "00"},
    {1, "00", 1, 1, 0, 1, "00"},
    {1, "04", 1, 0, 1, 1, "00"},
    {1, "00", 1, 1, 1, 0, ""},
    {1, "03", 1, 0, 1, REFUSED(7), ""},
    {1, "30", 1, 0, 1, REFUSED(6), ""},
    {1, "40", 1, 0, 0, REFUSED(6), ""},
    /* K4: n = 4, faulty 2, 4, 8, 15 */
    {4, "1030301030101023", 1, 13, 0, 3, "020300"},
    {4, "1030301030101023", 1, 6, 0, 4, "00010200"},
    {4, "1030301030101023", 1, 0, 14, REFUSED(16), ""},
    {4, "1030301030101023", 2, 0, 14, 5, "0001020013"},
    {4, "1030301030101023", 2, 10, 5, 4, "00010312"},
    /* as many hops as there is room for: five up and five down, in one network, where
     * block 6 ends both calls, and in two */
    {5, "23333330223333333333333322322322", 1, 0, 7, 0x1000a,
     "03000401020001020403"},
    {5, "23333330223333333333333322322322", 5, 0, 7, 0x1000a,
     "03000401020001020403"},
    {5, "02233303221023011332221301231021", 1, 0, 19, REFUSED(16), ""},
    {5, "02233303221023011332221301231021", 2, 0, 19, 0x10014,
     "0403000201010200030414131012111112101314"},
};

static unsigned hex(char digit)
{
    return (unsigned)(digit <= '9' ? digit - '0' : digit - 'a' + 10);
}

static void walk_of(const struct walk_row *row, unsigned number)
{
    uint8_t hops[HCUBE_HOPS_BYTES_MAX], want[HCUBE_HOPS_BYTES_MAX];
    uint32_t answer;
    put_digits_of(row->labels);
    memset(hops, 0xee, sizeof hops);
    memset(want, 0xee, sizeof want);
    for (size_t k = 0; row->hops[2 * k]; k++)
        want[k] = (uint8_t)(16 * hex(row->hops[2 * k]) + hex(row->hops[2 * k + 1]));
    answer = check_net_walk(
        fit_net_walk(row->n, row->networks, row->s, row->d, labels, hops));
    expect(answer == row->answer, "walk %u: %08x", number, answer);
    expect(!memcmp(hops, want, sizeof hops), "walk %u: other hops", number);
}

void check_worked_networks(void)
{
    begin_group("worked hops and walks by networks");
    for (unsigned k = 0; k < COUNT(hop_rows); k++) {
        struct net_hop_question asked;
        uint32_t answer;
        put_digits_of(hop_rows[k].labels);
        asked = fit_net_hop(4, hop_rows[k].c, hop_rows[k].d, labels);
        asked.network = hop_rows[k].network;
        asked.down = hop_rows[k].down;
        answer = check_net_hop(asked);
        expect(answer == hop_rows[k].answer, "hop %u: %08x", k, answer);
    }
    for (unsigned k = 0; k < COUNT(walk_rows); k++)
        walk_of(&walk_rows[k], k);
    end_group();
}
