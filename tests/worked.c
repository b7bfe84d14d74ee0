/*
 * worked.c: worked numbers (RULES, Numbers on both sides), and more of them for the
 * older rule and for draining nodes, each as a literal, asked of the library.
 */
#include <string.h>

#include "check.h"
#include "groups.h"

#define HALTED(hops) (0x10000u + (hops))

/* Labels of the table at hand; its dimension. */
static uint8_t labels[64];
static uint32_t n;

/* Labels tables of one or two bytes by the rule and expects so many exchanges. */
static void label_with(uint32_t rule, uint32_t dimension, unsigned faults,
                       unsigned draining, uint32_t exchanges)
{
    uint8_t table[2] = {(uint8_t)faults, (uint8_t)(faults >> 8)};
    uint8_t drained[2] = {(uint8_t)draining, (uint8_t)(draining >> 8)};
    struct label_question asked;
    uint32_t answer;
    n = dimension;
    memset(labels, 0xee, sizeof labels);
    asked = fit_label(dimension, table, labels);
    asked.rule = rule;
    asked.draining = drained;
    answer = check_label(asked);
    keep_half(asked, labels);
    expect(answer == exchanges, "labels of %04x, draining %04x: answer %08x",
           faults, draining, answer);
}

static void label_by(uint32_t rule, uint32_t dimension, unsigned faults,
                     uint32_t exchanges)
{
    label_with(rule, dimension, faults, 0, exchanges);
}

static void label(uint32_t dimension, unsigned faults, uint32_t exchanges)
{
    label_by(HCUBE_RULE_CHIU_WU, dimension, faults, exchanges);
}

static void labels_are(const char *digits)
{
    for (size_t k = 0; digits[k]; k++)
        expect(labels[k] == digits[k] - '0', "label of %u is %u", (unsigned)k,
               labels[k]);
}

/* Walks and expects this answer and these places; unused places are zero. */
static void walk(uint32_t s, uint32_t d, uint32_t answer, const char *places)
{
    uint8_t row[ROW_BYTES], want[ROW_BYTES];
    uint32_t got;
    memset(row, 0xee, sizeof row);
    memset(want, HCUBE_REFUSAL(answer) ? 0xee : 0, sizeof want);
    for (size_t k = 0; places[k]; k++)
        want[2 * k] = (uint8_t)(places[k] >= 'a' ? places[k] - 'a' + 10
                                                 : places[k] - '0');
    got = check_walk(fit_walk(n, s, d, labels, row));
    expect(got == answer, "walk %u to %u: %08x", s, d, got);
    expect(!memcmp(row, want, sizeof row), "walk %u to %u: row", s, d);
}

static void hop(uint32_t c, uint32_t d, uint32_t answer)
{
    uint32_t got = check_hop(fit_hop(n, c, d, labels));
    expect(got == answer, "hop at %u for %u: %08x", c, d, got);
}

/* K4: n = 4, faulty 2, 4, 8, 15. */
static void figure_1(void)
{
    label(4, 0x8114, 3);
    labels_are("1030301030101023");
    walk(13, 0, 3, "d910");
    walk(6, 0, 4, "67510");
    walk(14, 0, 5, "ecd910");
    walk(0, 14, 5, "01376e");
    walk(10, 10, 0, "a");
    walk(2, 0, REFUSED(6), "");
    walk(0, 2, REFUSED(7), "");
    hop(13, 0, 0x10002);
    hop(6, 0, 0x10000);
    hop(10, 10, 0);
    hop(2, 0, REFUSED(6));
}

static void no_node_safe(void)
{
    label(3, 0x16, 3);
    labels_are("23323222");
    walk(0, 7, HALTED(0), "0");
    walk(7, 0, HALTED(1), "76");
    walk(7, 3, 1, "73");
    hop(0, 7, 0x20000);
}

/* By the rule of Lee and Hayes: K4 has no safe node; faulty 0, 3, 4 leave
 * none in n = 3, where rule 3 does, and some in n = 4. */
static void older_rule(void)
{
    label_by(2, 4, 0x8114, 5);
    labels_are("2232322232222223");
    walk(13, 0, HALTED(1), "dc");
    label_by(2, 3, 0x19, 4);
    labels_are("32233222");
    label(3, 0x19, 2);
    labels_are("31133000");
    label_by(2, 4, 0x19, 4);
    labels_are("3113311100000000");
    label(4, 0x19, 2);
    labels_are("3113300000000000");
}

/* K4 with node 15 draining: the labels and walks of the others stay. */
static void last_node_drained(void)
{
    label_with(3, 4, 0x0114, 0x8000, 3);
    labels_are("1030301030101024");
    walk(13, 0, 3, "d910");
    walk(14, 0, 5, "ecd910");
    walk(7, 15, 1, "7f");
    walk(14, 15, 1, "ef");
    walk(3, 15, 2, "37f");
    walk(0, 15, 4, "0137f");
    walk(15, 0, REFUSED(6), "");
    walk(15, 15, REFUSED(6), "");
    hop(7, 15, 0x10003);
    hop(15, 15, 0);
    hop(15, 7, REFUSED(6));
    label_with(3, 4, 0x8114, 0x8000, 3);
    labels_are("1030301030101023");
    walk(7, 15, REFUSED(7), "");
    label_with(2, 4, 0x0114, 0x8000, 5);
    labels_are("2232322232222224");
    walk(0, 15, 4, "0137f");
}

/* K4 with a fifth node that does not work. Node 9 was on the way from 13 to
 * 0, which goes around it now; without node 1 no node is safe. */
static void one_more_drained(void)
{
    label_with(3, 4, 0x8114, 0x0200, 3);
    labels_are("1030301034212123");
    walk(13, 0, 3, "d510");
    walk(14, 0, 5, "e67510");
    walk(13, 9, 1, "d9");
    walk(6, 9, 4, "67519");
    walk(14, 9, 3, "ecd9");
    walk(9, 0, REFUSED(6), "");
    label_with(3, 4, 0x8114, 0x0002, 3);
    labels_are("2432322232222223");
    walk(13, 0, HALTED(1), "dc");
    walk(13, 1, 2, "d91");
    hop(9, 0, 0x20000);
    hop(9, 1, 0x10003);
}

static void small_drained(void)
{
    label_with(3, 1, 0x00, 0x01, 1);
    labels_are("40");
    walk(1, 0, 1, "10");
    walk(0, 1, REFUSED(6), "");
    label_with(3, 2, 0x02, 0x06, 2);
    labels_are("2342");
    walk(0, 3, HALTED(0), "0");
    walk(0, 2, 1, "02");
    walk(0, 1, REFUSED(7), "");
    label_with(3, 3, 0x12, 0x04, 3);
    labels_are("23423222");
    walk(7, 0, HALTED(1), "76");
    walk(5, 2, 3, "5762");
}

/* As many out of work as leave a safe node for certain, by either rule, and one
 * more than rule 2 bears; no_node_safe has one more than rule 3 bears. */
static void enough(void)
{
    for (uint32_t rule = 2; rule <= 3; rule++) {
        label_with(rule, 3, 0x02, 0x04, 2);
        labels_are("13410000");
        walk(0, 3, 4, "04573");
    }
    label_by(2, 2, 0x09, 2);
    labels_are("3223");
    walk(1, 2, HALTED(0), "1");
}

static void small_cubes(void)
{
    label(1, 0x01, 1);
    labels_are("30");
    label(2, 0x02, 1);
    labels_are("0300");
    walk(0, 3, 2, "023");
    label(2, 0x06, 2);
    labels_are("2332");
    walk(0, 3, HALTED(0), "0");
}

/* Between 0 and 4 for ever: refused with 8. */
static void swinging(void)
{
    static const uint8_t table[8] = {0, 3, 3, 0, 0, 3, 3, 0};
    n = 3;
    memcpy(labels, table, sizeof table);
    walk(0, 3, REFUSED(8), "");
    hop(0, 3, 0x10002);
    hop(4, 3, 0x10002);
}

static void no_walk(void)
{
    for (uint32_t s = 0; s < 1u << n; s++)
        for (uint32_t d = 0; d < 1u << n; d++)
            walk(s, d, REFUSED(6), "");
}

static void none_and_all(void)
{
    for (uint32_t dimension = 1; dimension <= 4; dimension++) {
        unsigned all = (1u << (1u << dimension)) - 1;
        label(dimension, 0, 1);
        for (uint32_t k = 0; k < 1u << n; k++)
            expect(labels[k] == 0, "no faults: %u is not safe", k);
        label(dimension, all, 1);
        no_walk();
        label_with(3, dimension, 0, all, 1);
        no_walk();
    }
}

void check_worked_numbers(void)
{
    begin_group("worked numbers");
    figure_1();
    no_node_safe();
    older_rule();
    last_node_drained();
    one_more_drained();
    small_drained();
    enough();
    small_cubes();
    swinging();
    none_and_all();
    end_group();
}
