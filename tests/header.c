/*
 * header.c: uses every name of hcube.h, and every macro that takes something
 * with variables too, since a macro warns only where it is used. Compiled as C
 * and as C++ by tests/header, and never run.
 */
#include "hcube.h"
#include "hcube.h"

/* A line that does not compile unless the condition holds. */
#define HOLDS(name, condition) typedef char name[(condition) ? 1 : -1]

/* A cast that either language takes without a warning. */
#ifdef __cplusplus
#define CAST(type, value) (static_cast<type>(value))
#else
#define CAST(type, value) ((type)(value))
#endif

/* What #if takes. */
#if HCUBE_VERSION < 10000 || HCUBE_VERSION_MAJOR < 1 || \
    HCUBE_VERSION / 10000 != HCUBE_VERSION_MAJOR || \
    HCUBE_VERSION / 100 % 100 != HCUBE_VERSION_MINOR || \
    HCUBE_VERSION % 100 != HCUBE_VERSION_PATCH
#error the version is not made of its parts
#endif
#if HCUBE_VERSION < 10500
#error the version is older than the newest function
#endif
#if HCUBE_DIMENSION_MAX != 12 || HCUBE_NODES_MAX != 4096 || \
    HCUBE_LABEL_BYTES_MAX != 8192 || HCUBE_FAULT_BYTES_MAX != 512 || \
    HCUBE_NOTICE_BYTES_MAX != 4099 || HCUBE_LIST_BYTES_MAX != 12913 || \
    HCUBE_NETWORKS_MAX != 5 || HCUBE_HOPS_BYTES_MAX != 120 || \
    HCUBE_ROW_BYTES != 34
#error the sizes of the largest cube are wrong
#endif
HOLDS(most_nodes, HCUBE_NODES_MAX == HCUBE_NODES(HCUBE_DIMENSION_MAX));
HOLDS(most_labels,
      HCUBE_LABEL_BYTES_MAX == HCUBE_LABEL_BYTES(HCUBE_DIMENSION_MAX));
HOLDS(most_faults,
      HCUBE_FAULT_BYTES_MAX == HCUBE_FAULT_BYTES(HCUBE_DIMENSION_MAX));
/* Dimension, a count of two groups, and a byte for each node. */
HOLDS(longest_notice,
      HCUBE_NOTICE_BYTES_MAX == 3 + HCUBE_NODES(HCUBE_DIMENSION_MAX));
/* Of 2,731 faulty nodes, 0, 1, 3, 4, 6 and so on up to 4,095, 7 have one digit, 60
 * two, 600 three and 2,064 four; and a sign stands between each two. */
HOLDS(longest_list, HCUBE_LIST_BYTES_MAX ==
                        7 * 1 + 60 * 2 + 600 * 3 + 2064 * 4 + 2730);
HOLDS(most_hops, HCUBE_HOPS_BYTES(12, 5) == HCUBE_HOPS_BYTES_MAX &&
                     96 / HCUBE_HOPS_BYTES(2 + 1, 1 + 3) == 4);
/* In an expression. */
HOLDS(twice_the_longest, 2 * HCUBE_LIST_BYTES_MAX == 25826 &&
                             2 * HCUBE_NOTICE_BYTES_MAX == 8198);

HOLDS(answer_refusal, HCUBE_REFUSAL(0x08000000u) == HCUBE_TOO_MANY_HOPS);
HOLDS(answer_kind, HCUBE_KIND(0x0002000bu) == HCUBE_HALTED);
HOLDS(answer_value, HCUBE_VALUE(0x0001000bu) == 11);

/* Answers of 64 bits: a notice that is read, one that is refused, every bit. */
#define NOTICE(dimension, count, low)                                          \
    (CAST(uint64_t, dimension) << 48 | CAST(uint64_t, count) << 32 |           \
     CAST(uint64_t, low))
#define READ NOTICE(12, 4096, 4099)
#define REFUSED NOTICE(0, 0, 0x0a000002u)
#define ALL_BITS NOTICE(0xffff, 0xffff, 0xffffffffu)

HOLDS(notice_parts, HCUBE_NOTICE_DIMENSION(READ) == 12 &&
                        HCUBE_NOTICE_COUNT(READ) == 4096);
HOLDS(notice_read, HCUBE_REFUSAL(READ) == HCUBE_ACCEPTED &&
                       HCUBE_KIND(READ) == 0 && HCUBE_VALUE(READ) == 4099);
HOLDS(notice_refused, HCUBE_REFUSAL(REFUSED) == HCUBE_BAD_GROUP &&
                          HCUBE_KIND(REFUSED) == 0 &&
                          HCUBE_VALUE(REFUSED) == 2);
HOLDS(notice_cut, HCUBE_REFUSAL(CAST(uint32_t, REFUSED)) == HCUBE_BAD_GROUP &&
                      HCUBE_VALUE(CAST(uint32_t, REFUSED)) == 2 &&
                      HCUBE_REFUSAL(CAST(uint32_t, READ)) == HCUBE_ACCEPTED &&
                      HCUBE_VALUE(CAST(uint32_t, READ)) == 4099);
HOLDS(bits_of_64, HCUBE_REFUSAL(ALL_BITS) == 0xff &&
                      HCUBE_KIND(ALL_BITS) == 0xff &&
                      HCUBE_VALUE(ALL_BITS) == 0xffff);
HOLDS(bits_of_32, HCUBE_REFUSAL(CAST(uint32_t, ALL_BITS)) == 0xff &&
                      HCUBE_KIND(CAST(uint32_t, ALL_BITS)) == 0xff &&
                      HCUBE_VALUE(CAST(uint32_t, ALL_BITS)) == 0xffff);
HOLDS(bits_of_notice, HCUBE_NOTICE_DIMENSION(ALL_BITS) == 0xffff &&
                          HCUBE_NOTICE_COUNT(ALL_BITS) == 0xffff);

/* Answers of why a node has its label, and of why a hop is taken. */
#define WHY(cause, third, second, first, low)                                  \
    (CAST(uint64_t, cause) << 56 | CAST(uint64_t, third) << 48 |               \
     CAST(uint64_t, second) << 40 | CAST(uint64_t, first) << 32 |              \
     CAST(uint64_t, low))
#define THREE WHY(2, 11, 7, 5, 0x000200abu)
#define HOPS 0x0001050bu

HOLDS(why_cause, HCUBE_WHY_CAUSE(THREE) == HCUBE_CAUSE_MARKED &&
                     HCUBE_WHY_FIRST(THREE) == 5 &&
                     HCUBE_WHY_SECOND(THREE) == 7 &&
                     HCUBE_WHY_THIRD(THREE) == 11);
HOLDS(why_label, HCUBE_REFUSAL(THREE) == HCUBE_ACCEPTED &&
                     HCUBE_KIND(THREE) == HCUBE_STRONG &&
                     HCUBE_VALUE(THREE) == 171);
HOLDS(why_refused, HCUBE_WHY_CAUSE(REFUSED) == HCUBE_CAUSE_NONE &&
                       HCUBE_WHY_FIRST(REFUSED) == 0 &&
                       HCUBE_WHY_SECOND(REFUSED) == 0 &&
                       HCUBE_WHY_THIRD(REFUSED) == 0);
HOLDS(bits_of_why, HCUBE_WHY_CAUSE(ALL_BITS) == 0xff &&
                       HCUBE_WHY_FIRST(ALL_BITS) == 0xff &&
                       HCUBE_WHY_SECOND(ALL_BITS) == 0xff &&
                       HCUBE_WHY_THIRD(ALL_BITS) == 0xff);
HOLDS(why_scan, HCUBE_KIND(HOPS) == HCUBE_HOP && HCUBE_WHY_SCAN(HOPS) == 5 &&
                    HCUBE_WHY_DIMENSION(HOPS) == 11);
HOLDS(bits_of_scan, HCUBE_WHY_SCAN(ALL_BITS) == 0xff &&
                        HCUBE_WHY_DIMENSION(ALL_BITS) == 0xff);
/* Of an expression. */
HOLDS(why_of_two, HCUBE_WHY_CAUSE(THREE | 0) == 2 &&
                      HCUBE_WHY_FIRST(THREE | 0) == 5 &&
                      HCUBE_WHY_SECOND(THREE | 0) == 7 &&
                      HCUBE_WHY_THIRD(THREE | 0) == 11 &&
                      HCUBE_WHY_SCAN(HOPS | 0) == 5 &&
                      HCUBE_WHY_DIMENSION(HOPS | 0) == 11);
/* A hop by networks, of an answer and of a list. */
HOLDS(net_hop, HCUBE_HOP_NETWORK(0x0001003bu | 0) == 3 &&
                   HCUBE_HOP_DIMENSION(0x0001003bu | 0) == 11 &&
                   HCUBE_HOP_NETWORK(0x40) == 4 && HCUBE_HOP_DIMENSION(0x40) == 0);
HOLDS(bits_of_hop, HCUBE_HOP_NETWORK(ALL_BITS) == 0xf &&
                       HCUBE_HOP_DIMENSION(ALL_BITS) == 0xf);
HOLDS(causes, HCUBE_CAUSE_NONE == 0 && HCUBE_CAUSE_FAULTY == 1 &&
                  HCUBE_CAUSE_MARKED == 2);

HOLDS(table_bytes_1, HCUBE_NODES(1) == 2 && HCUBE_FAULT_BYTES(1) == 1);
HOLDS(table_bytes_3, HCUBE_NODES(3) == 8 && HCUBE_FAULT_BYTES(3) == 1);
HOLDS(table_bytes_4, HCUBE_NODES(4) == 16 && HCUBE_FAULT_BYTES(4) == 2);
HOLDS(table_bytes_12, HCUBE_NODES(12) == 4096 && HCUBE_FAULT_BYTES(12) == 512);
HOLDS(label_bytes, HCUBE_LABEL_BYTES(1) == 4 && HCUBE_LABEL_BYTES(4) == 32 &&
                       HCUBE_LABEL_BYTES(12) == 8192);
HOLDS(halves_1, HCUBE_HALF(1, 0) == 0 && HCUBE_HALF(1, 1) == 2);
HOLDS(halves_4, HCUBE_HALF(4, 0) == 0 && HCUBE_HALF(2 + 2, 1 - 0) == 16);
HOLDS(halves_12, HCUBE_HALF(12, 0) == 0 && HCUBE_HALF(12, 1) == 4096);
HOLDS(exchanges_1, HCUBE_EXCHANGES_MAX(1) == 1 && HCUBE_EXCHANGES_MAX(2) == 3 &&
                       HCUBE_EXCHANGES_MAX(3) == 7 &&
                       HCUBE_EXCHANGES_MAX(4) == 15);
HOLDS(exchanges_5, HCUBE_EXCHANGES_MAX(5) == 31 &&
                       HCUBE_EXCHANGES_MAX(6) == 63 &&
                       HCUBE_EXCHANGES_MAX(7) == 127 &&
                       HCUBE_EXCHANGES_MAX(8) == 255);
HOLDS(exchanges_9, HCUBE_EXCHANGES_MAX(9) == 511 &&
                       HCUBE_EXCHANGES_MAX(10) == 1023 &&
                       HCUBE_EXCHANGES_MAX(11) == 2047 &&
                       2 * HCUBE_EXCHANGES_MAX(10 + 2) == 8190);
HOLDS(sizes, sizeof HCUBE_EXCHANGES_MAX(1) == sizeof(size_t) &&
                 sizeof HCUBE_LABEL_BYTES(1) == sizeof(size_t) &&
                 sizeof HCUBE_HALF(1, 1) == sizeof(size_t));
HOLDS(rules, HCUBE_RULE_LEE_HAYES == 2 && HCUBE_RULE_CHIU_WU == 3 &&
                 HCUBE_BAD_RULE == 18);
HOLDS(label_values, HCUBE_SAFE == 0 && HCUBE_ORDINARY == 1 &&
                        HCUBE_STRONG == 2 && HCUBE_FAULTY == 3 &&
                        HCUBE_DRAINING == 4);
HOLDS(kinds, HCUBE_DELIVER == 0 && HCUBE_HOP == 1 && HCUBE_HALTED == 2 &&
                 HCUBE_WALK_DELIVERED == 0 && HCUBE_WALK_HALTED == 1);
HOLDS(refusals_1, HCUBE_ACCEPTED == 0 && HCUBE_BAD_DIMENSION == 1 &&
                      HCUBE_BAD_LENGTH == 2 && HCUBE_UNUSED_BIT == 3 &&
                      HCUBE_BAD_LABEL == 4 && HCUBE_BAD_NODE == 5);
HOLDS(refusals_6, HCUBE_FAULTY_SOURCE == 6 && HCUBE_FAULTY_TARGET == 7 &&
                      HCUBE_TOO_MANY_HOPS == 8 && HCUBE_CUT_SHORT == 9);
HOLDS(refusals_10, HCUBE_BAD_GROUP == 10 && HCUBE_BAD_COUNT == 11 &&
                       HCUBE_BAD_ADDRESS == 12 && HCUBE_NO_ROOM == 13 &&
                       HCUBE_BAD_LIST == 14 && HCUBE_BAD_NETWORK == 15 &&
                       HCUBE_NO_NETWORK == 16 && HCUBE_BAD_MASK == 17 &&
                       HCUBE_BAD_JOB == 19);

/* Every macro that takes something, with variables of each type that a caller
 * may have there. */
size_t sizes_32(uint32_t n, uint32_t job);
uint64_t sizes_64(uint64_t n, uint64_t job);
size_t sizes_as_size(size_t n, size_t job);
uint32_t parts_32(uint32_t answer);
uint64_t parts_64(uint64_t answer);
uint64_t call_all(const uint8_t *bytes, uint8_t *faults, uint8_t *labels,
                  uint8_t *row, uint8_t *out, const uint16_t *masks,
                  uint16_t *namers);
const char *words(const uint8_t *row, uint32_t walked, uint32_t hopped);

#define SIZES(n, job)                                                          \
    (HCUBE_NODES(n) + HCUBE_LABEL_BYTES(n) + HCUBE_FAULT_BYTES(n) +            \
     HCUBE_HALF(n, job) + HCUBE_EXCHANGES_MAX(n) + HCUBE_ROW_BYTES +            \
     HCUBE_HOPS_BYTES(n, job))

size_t sizes_32(uint32_t n, uint32_t job)
{
    return SIZES(n, job);
}

uint64_t sizes_64(uint64_t n, uint64_t job)
{
    return SIZES(n, job);
}

size_t sizes_as_size(size_t n, size_t job)
{
    return SIZES(n, job);
}

uint32_t parts_32(uint32_t answer)
{
    return HCUBE_REFUSAL(answer) + HCUBE_KIND(answer) + HCUBE_VALUE(answer) +
           HCUBE_WHY_SCAN(answer) + HCUBE_WHY_DIMENSION(answer) +
           HCUBE_HOP_NETWORK(answer) + HCUBE_HOP_DIMENSION(answer);
}

uint64_t parts_64(uint64_t answer)
{
    return HCUBE_REFUSAL(answer) + HCUBE_KIND(answer) + HCUBE_VALUE(answer) +
           HCUBE_NOTICE_DIMENSION(answer) + HCUBE_NOTICE_COUNT(answer) +
           HCUBE_WHY_CAUSE(answer) + HCUBE_WHY_FIRST(answer) +
           HCUBE_WHY_SECOND(answer) + HCUBE_WHY_THIRD(answer) +
           HCUBE_WHY_SCAN(answer) + HCUBE_WHY_DIMENSION(answer) +
           HCUBE_HOP_NETWORK(answer) + HCUBE_HOP_DIMENSION(answer);
}

uint64_t call_all(const uint8_t *bytes, uint8_t *faults, uint8_t *labels,
                  uint8_t *row, uint8_t *out, const uint16_t *masks,
                  uint16_t *namers)
{
    static const uint8_t none[HCUBE_FAULT_BYTES_MAX] = {0};
    uint32_t n = HCUBE_VALUE(hcube_notice_dimension(bytes, 12));
    size_t table = HCUBE_FAULT_BYTES(n), size = HCUBE_LABEL_BYTES(n);
    uint64_t read = hcube_read_notice(bytes, 12, faults, table);
    uint32_t all = hcube_label(n, HCUBE_RULE_CHIU_WU, 1, faults, table, none,
                               table, none, table, labels, size);
    uint64_t why = hcube_why_node(n, HCUBE_RULE_CHIU_WU, 1, 0, faults, table,
                                  none, table, none, table, labels, size);
    all += hcube_hop(n, 1, 0, 1, labels, size);
    all += parts_32(hcube_why_hop(n, 1, 0, 1, labels, size));
    all += hcube_walk(n, 1, 0, 1, labels, size, row, HCUBE_ROW_BYTES);
    all += parts_32(hcube_hop_networks(n, 5, 1, 0, 1, 0, 0, labels, size));
    all += hcube_walk_networks(n, 5, 1, 0, 1, labels, size, out,
                               HCUBE_HOPS_BYTES(n, 5));
    all += HCUBE_HOP_NETWORK(*out) * 16u + HCUBE_HOP_DIMENSION(*out);
    all += parts_32(
        hcube_write_notice(n, faults, table, out, HCUBE_NOTICE_BYTES_MAX));
    all += parts_32(
        hcube_write_list(n, faults, table, out, HCUBE_LIST_BYTES_MAX));
    all += parts_32(hcube_read_list(n, bytes, 12, faults, table));
    all += parts_32(hcube_repair(n, faults, table, masks, HCUBE_NODES(n), out,
                                 table, namers, HCUBE_NODES(n)));
    return all + parts_64(read) + parts_64(why);
}

const char *words(const uint8_t *row, uint32_t walked, uint32_t hopped)
{
    if (HCUBE_KIND(hopped) == HCUBE_HOP)
        return hcube_scan_text(HCUBE_WHY_SCAN(hopped));
    if (hcube_row_node(row, HCUBE_VALUE(walked)) != hcube_row_node(row, 0))
        return hcube_refusal_text(HCUBE_REFUSAL(walked));
    return hcube_refusal_text(HCUBE_ACCEPTED);
}
